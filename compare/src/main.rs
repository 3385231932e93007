//! `compare [SECONDS] [SEED] [files=NUMBER] [change=NAME]` compares the library with the reference,
//! all factors first and then files, each with a load, until the time is over or so many are
//! compared, and stops at the first difference.

mod fault;
mod linked;

use std::process::ExitCode;
use std::time::{Duration, Instant};

use compare::changes::{Change, Changed, CHANGES};
use compare::codes_and_days::{self, asked_once};
use compare::comparison::{compare_factors, compare_file, compare_load, Difference};
use compare::files::{file, File};
use compare::implementation::{Implementation, Reference};
use compare::lending::Lending;
use compare::loads::{self, Drawn};
use compare::summary::Summary;
use linked::Library;

struct Request {
    seconds: u64,
    seed: u64,
    files: u64,
    change: Option<Change>,
}

fn main() -> ExitCode {
    let Some(request) = request_of(std::env::args().skip(1)) else {
        let names: Vec<&str> = CHANGES.iter().map(|(name, _)| *name).collect();
        eprintln!("usage: compare [SECONDS] [SEED] [files=NUMBER] [change=NAME]");
        eprintln!("changes: {}", names.join(" "));
        return ExitCode::from(2);
    };
    fault::report_faults();
    let start = Instant::now();
    match compare_all(&request, start) {
        Ok(summary) => {
            println!("seed {}, {} seconds", request.seed, start.elapsed().as_secs());
            println!("{summary}");
            ExitCode::SUCCESS
        }
        Err((subject, difference)) => {
            report(&subject, &difference.to_string());
            ExitCode::FAILURE
        }
    }
}

fn request_of(words: impl Iterator<Item = String>) -> Option<Request> {
    let mut plain = [240, 1];
    let mut given = 0;
    let (mut files, mut change) = (u64::MAX, None);
    for word in words {
        if let Some(number) = word.strip_prefix("files=") {
            files = number.parse().ok()?;
        } else if let Some(name) = word.strip_prefix("change=") {
            change = Some(CHANGES.iter().find(|(known, _)| *known == name)?.1);
        } else {
            *plain.get_mut(given)? = word.parse().ok()?;
            given += 1;
        }
    }
    let [seconds, seed] = plain;
    Some(Request { seconds, seed, files, change })
}

/// What both are asked about.
enum Subject {
    Factors { code: u64, days: u64 },
    File(File),
    Load(Drawn),
}

/// A difference, and what it is about.
type Found = (Subject, Box<Difference>);

struct Run<'a> {
    library: &'a dyn Implementation,
    lending: Lending,
    summary: Summary,
}

impl Run<'_> {
    fn ask(&mut self, subject: Subject) -> Result<(), Found> {
        fault::asking_about(Some(&subject));
        let (library, lending, summary) = (self.library, &mut self.lending, &mut self.summary);
        let compared = match &subject {
            Subject::Factors { code, days } => {
                compare_factors((*code, *days), &Reference, library, summary)
            }
            Subject::File(file) => compare_file(file, &Reference, library, lending, summary),
            Subject::Load(drawn) => compare_load(drawn, &Reference, library, lending, summary),
        };
        fault::asking_about(None);
        compared.map_err(|difference| (subject, difference))
    }
}

fn compare_all(request: &Request, start: Instant) -> Result<Summary, Found> {
    let changed;
    let library: &dyn Implementation = match request.change {
        None => &Library,
        Some(change) => {
            changed = Changed { of: &Library, change };
            &changed
        }
    };
    let mut run = Run { library, lending: Lending::new(), summary: Summary::default() };
    for (code, days) in asked_once() {
        run.ask(Subject::Factors { code, days })?;
    }
    let until = Duration::from_secs(request.seconds);
    while start.elapsed() < until && run.summary.files < request.files {
        let number = run.summary.files;
        run.ask(Subject::File(file(request.seed, number)))?;
        let (code, days) = codes_and_days::drawn(request.seed, number);
        run.ask(Subject::Factors { code, days })?;
        run.ask(Subject::Load(loads::drawn(request.seed, number)))?;
    }
    Ok(run.summary)
}

/// Says what is different, and writes the file to `difference.account` in the current folder.
fn report(subject: &Subject, difference: &str) {
    let file = match subject {
        Subject::Factors { code, days } => {
            println!("the factors of code {code} and {days} days\n{difference}");
            return;
        }
        Subject::Load(drawn) => {
            println!("{:?}\n{difference}", drawn.load);
            return;
        }
        Subject::File(file) => file,
    };
    println!("file {}, {}: {}", file.number, file.family.name(), file.kinds.join(", "));
    println!("{difference}");
    let path = std::env::current_dir().unwrap_or_default().join("difference.account");
    match std::fs::write(&path, &file.bytes) {
        Ok(()) => println!("the file is written to {}", path.display()),
        Err(error) => println!("the file cannot be written to {}: {error}", path.display()),
    }
}
