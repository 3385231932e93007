//! Both answers to each question about a file, and to each one for the factors or for a load.

use std::fmt;

use reference::day::Day;
use reference::instalment_cases::Call;
use reference::reader::{distance, read_account, TRAILER_BYTES};

use crate::codes_and_days::expectation;
use crate::days::days;
use crate::files::File;
use crate::implementation::{self, Factors, Implementation, Line, Margin};
use crate::instalments::compare_instalments;
use crate::lending::{Lending, Place};
use crate::list::{content_before, List};
use crate::loads::{self, Drawn, Load};
use crate::questions::{questions, Question};
use crate::summary::Summary;

/// Entries after the caller's list, which is not told of them.
const AFTER_LIST: usize = 3;

#[derive(Clone, Debug, PartialEq, Eq)]
pub enum Answer {
    /// With the whole list as it was left, and the entries after it.
    Margin(Margin, Vec<Line>),
    Amount(i64),
    Premiums(implementation::Answer),
    Factors(Factors),
    /// With the file's bytes after it.
    Day(implementation::Answer, Vec<u8>),
    /// With the whole list as it was left, and the entries beside it.
    Call(Call, implementation::Answer, Vec<Line>),
    /// With the whole buffer as it was left.
    Load(implementation::Answer, Vec<u8>),
}

#[derive(Clone, Debug, PartialEq, Eq)]
pub enum Difference {
    Answers {
        question: Question,
        reference: Answer,
        library: Answer,
    },
    /// With what the list held before the call.
    OnList {
        list: Vec<Line>,
        question: Question,
        reference: Answer,
        library: Answer,
    },
    FileWrittenTo {
        question: Question,
    },
    WrittenBeside {
        question: Question,
    },
}

/// Stops at the first difference. What was compared is added to the summary.
pub fn compare_file(
    file: &File,
    reference: &dyn Implementation,
    library: &dyn Implementation,
    lending: &mut Lending,
    summary: &mut Summary,
) -> Result<(), Box<Difference>> {
    let reading = read_account(&file.bytes);
    let position_count = reading.as_ref().ok().map(|account| account.positions.len());
    let copies = lending.lend(&file.bytes);
    let mut turn = file.number as usize;
    for (question, purpose) in questions(file.seed_of_questions, position_count) {
        turn += 1;
        let copy = copies[turn % 2];
        let expected = answer(reference, &file.bytes, question);
        same(question, &expected, answer(library, copy, question))?;
        if copy != file.bytes {
            return Err(Box::new(Difference::FileWrittenTo { question }));
        }
        summary.add_answer(&expected, purpose);
    }
    let bytes = &file.bytes;
    let mut asking = Asking { bytes, copies, turn, reference, library, summary: &mut *summary };
    compare_instalments(&mut asking, file.seed_of_questions, position_count)?;
    turn = asking.turn;
    for day in days(file.seed_of_questions, reading.as_ref().ok()) {
        turn += 1;
        let place = [Place::BehindForbidden, Place::BeforeForbidden][turn % 2];
        compare_day(&file.bytes, (day, place), reference, library, lending, summary)?;
    }
    summary.add_file(file, &reading);
    Ok(())
}

/// A file that both are asked about, and the copies of it that the library gets by turns.
pub struct Asking<'a> {
    bytes: &'a [u8],
    copies: [&'a [u8]; 2],
    turn: usize,
    reference: &'a dyn Implementation,
    library: &'a dyn Implementation,
    summary: &'a mut Summary,
}

impl Asking<'_> {
    /// Both answers to a call on the same list, which is left as the call leaves it.
    pub fn ask(
        &mut self,
        list: &mut List,
        call: Call,
    ) -> Result<implementation::Answer, Box<Difference>> {
        self.turn += 1;
        let copy = self.copies[self.turn % 2];
        let question = Question::Instalment { room: list.room, call };
        let before = list.clone();
        let (answer, expected) = call_answer(self.reference, self.bytes, list, call);
        let (_, library) = call_answer(self.library, copy, &mut before.clone(), call);
        if library != expected {
            let (list, reference) = (before.lines().to_vec(), expected);
            return Err(Box::new(Difference::OnList { list, question, reference, library }));
        }
        if copy != self.bytes {
            return Err(Box::new(Difference::FileWrittenTo { question }));
        }
        self.summary.add_answer(&expected, call_outcome(call, &answer));
        Ok(answer)
    }
}

fn call_answer(
    implementation: &dyn Implementation,
    file: &[u8],
    list: &mut List,
    call: Call,
) -> (implementation::Answer, Answer) {
    let answer = implementation.call(file, list, call);
    (answer, Answer::Call(call, answer, list.entries.clone()))
}

/// What came of a call on a list.
fn call_outcome(call: Call, answer: &implementation::Answer) -> &'static str {
    match (answer.refusal, call) {
        (0, Call::Pair { allowance: 0, .. }) => "allowance 0",
        (0, Call::Pair { allowance, .. }) if answer.value == allowance => "as many as allowed",
        (0, Call::Pair { .. }) if answer.value > 0 => "fewer than allowed",
        (0, Call::Pair { .. }) => "none left to make",
        (0, Call::Amount { count: 0 }) => "no pair",
        (0, Call::Amount { .. }) => "some pairs",
        (0, Call::Apart { k: 0, .. }) => "none taken apart",
        (0, Call::Apart { .. }) if answer.value == 0 => "all taken apart",
        (0, Call::Apart { .. }) => "some taken apart",
        (12, _) => "list too short",
        (18, _) => "not the first pairs",
        (19, _) => "more than there are",
        _ => "refused file",
    }
}

/// The same for a day. The library applies it twice, which is to alter nothing more.
fn compare_day(
    file: &[u8],
    (day, place): (Day, Place),
    reference: &dyn Implementation,
    library: &dyn Implementation,
    lending: &mut Lending,
    summary: &mut Summary,
) -> Result<(), Box<Difference>> {
    let mut after = file.to_vec();
    let answer = reference.day(&mut after, &day);
    let outcome = outcome(&answer, file, &after);
    let expected = Answer::Day(answer, after);
    let copy = lending.lend_to_write(file, place);
    for question in [Question::Day(day), Question::SameDay(day)] {
        let found = library.day(copy, &day);
        same(question, &expected, Answer::Day(found, copy.to_vec()))?;
        summary.add_answer(&expected, outcome);
    }
    if !lending.marks_kept(file.len(), place) {
        return Err(Box::new(Difference::WrittenBeside { question: Question::Day(day) }));
    }
    Ok(())
}

/// What came of a day. Where a byte of the position rows is altered, a flag was set.
fn outcome(answer: &implementation::Answer, before: &[u8], after: &[u8]) -> &'static str {
    match answer.refusal {
        0 if position_rows(before) != position_rows(after) => "flags set",
        0 => "no flag set",
        16 => "no such series",
        17 => "no such prices",
        _ => "refused file",
    }
}

/// The bytes from the first position row on, of an accepted file.
fn position_rows(file: &[u8]) -> &[u8] {
    let count_at = file.len() - TRAILER_BYTES + 2;
    let count = u16::from_le_bytes([file[count_at], file[count_at + 1]]);
    &file[file.len() - distance(0, count.into())..]
}

/// The same for one code and number of days.
pub fn compare_factors(
    (code, days): (u64, u64),
    reference: &dyn Implementation,
    library: &dyn Implementation,
    summary: &mut Summary,
) -> Result<(), Box<Difference>> {
    let question = Question::Factors { code, days };
    let expected = answer(reference, &[], question);
    same(question, &expected, answer(library, &[], question))?;
    summary.add_answer(&expected, expectation(code, days));
    Ok(())
}

/// The same for a load: the answer, and the whole buffer. The file that is made may be asked about.
pub fn compare_load(
    drawn: &Drawn,
    reference: &dyn Implementation,
    library: &dyn Implementation,
    lending: &mut Lending,
    summary: &mut Summary,
) -> Result<(), Box<Difference>> {
    let Drawn { load: load @ Load { seed, p, room }, ref before, place, lines } = *drawn;
    let question = Question::Load(load);
    let mut after = before.clone();
    let answer = reference.load(seed, p, &mut after);
    let expected = Answer::Load(answer, after.clone());
    let copy = lending.lend_to_write(before, place);
    let found = library.load(seed, p, copy);
    same(question, &expected, Answer::Load(found, copy.to_vec()))?;
    if !lending.marks_kept(room, place) {
        return Err(Box::new(Difference::WrittenBeside { question }));
    }
    summary.add_answer(&expected, loads::expectation(&load));
    if answer.refusal == 0 && lines {
        let file = &after[..answer.value as usize];
        let copy = lending.lend(file)[usize::from(place == Place::BeforeForbidden)];
        compare_made(file, copy, 2 * p as usize, reference, library, summary)?;
    }
    Ok(())
}

/// The lines of a file that a load made, in a list of so many entries. Every such file is accepted.
fn compare_made(
    file: &[u8],
    copy: &[u8],
    room: usize,
    reference: &dyn Implementation,
    library: &dyn Implementation,
    summary: &mut Summary,
) -> Result<(), Box<Difference>> {
    let question = Question::Margin { room };
    let expected = answer(reference, file, question);
    assert!(
        matches!(expected, Answer::Margin(Margin { refusal: 0, .. }, _)),
        "the reference refuses a file that it made: {expected:?}"
    );
    same(question, &expected, answer(library, copy, question))?;
    if copy != file {
        return Err(Box::new(Difference::FileWrittenTo { question }));
    }
    summary.add_answer(&expected, "made by a load");
    Ok(())
}

fn same(question: Question, expected: &Answer, found: Answer) -> Result<(), Box<Difference>> {
    if found == *expected {
        return Ok(());
    }
    let reference = expected.clone();
    Err(Box::new(Difference::Answers { question, reference, library: found }))
}

fn answer(implementation: &dyn Implementation, file: &[u8], question: Question) -> Answer {
    match question {
        Question::Margin { room } => {
            let mut entries: Vec<Line> = (0..room + AFTER_LIST).map(content_before).collect();
            let margin = implementation.margin(file, &mut entries, room);
            Answer::Margin(margin, entries)
        }
        Question::Amount { row } => Answer::Amount(implementation.position_amount(file, row)),
        Question::Premiums => Answer::Premiums(implementation.premiums(file)),
        Question::Factors { code, days } => Answer::Factors(implementation.factors(code, days)),
        Question::Day(day) | Question::SameDay(day) => {
            let mut bytes = file.to_vec();
            Answer::Day(implementation.day(&mut bytes, &day), bytes)
        }
        Question::Instalment { room, call } => {
            call_answer(implementation, file, &mut List::marked(room), call).1
        }
        Question::Load(Load { seed, p, room }) => {
            let mut buffer = vec![0; room];
            Answer::Load(implementation.load(seed, p, &mut buffer), buffer)
        }
    }
}

impl fmt::Display for Difference {
    fn fmt(&self, out: &mut fmt::Formatter) -> fmt::Result {
        match self {
            Difference::FileWrittenTo { question } => {
                write!(out, "asked: {question:?}\nthe file's bytes were written to")
            }
            Difference::WrittenBeside { question } => {
                write!(out, "asked: {question:?}\nbytes beside the file or buffer were written to")
            }
            Difference::Answers { question, reference, library } => {
                write_both(out, question, reference, library)
            }
            Difference::OnList { list, question, reference, library } => {
                writeln!(out, "the list: {list:?}")?;
                write_both(out, question, reference, library)
            }
        }
    }
}

fn write_both(
    out: &mut fmt::Formatter,
    question: &Question,
    reference: &Answer,
    library: &Answer,
) -> fmt::Result {
    writeln!(out, "asked: {question:?}")?;
    writeln!(out, "reference: {}", first_part(reference))?;
    write!(out, "library: {}", first_part(library))?;
    write_other_entry(out, reference, library)
}

fn first_part(answer: &Answer) -> String {
    match answer {
        Answer::Margin(margin, _) => format!("{margin:?}"),
        Answer::Amount(amount) => format!("{amount}"),
        Answer::Premiums(premiums) => format!("{premiums:?}"),
        Answer::Factors(factors) => format!("{factors:?}"),
        Answer::Day(answer, _) => format!("{answer:?}"),
        Answer::Call(_, answer, _) => format!("{answer:?}"),
        Answer::Load(answer, _) => format!("{answer:?}"),
    }
}

/// The first entry of the list, or byte of the file or buffer, that differs, if there is one.
fn write_other_entry(out: &mut fmt::Formatter, one: &Answer, other: &Answer) -> fmt::Result {
    match (one, other) {
        (Answer::Margin(_, expected), Answer::Margin(_, found))
        | (Answer::Call(_, _, expected), Answer::Call(_, _, found)) => {
            write_first_other(out, "entry", expected, found)
        }
        (Answer::Day(_, expected), Answer::Day(_, found))
        | (Answer::Load(_, expected), Answer::Load(_, found)) => {
            write_first_other(out, "byte", expected, found)
        }
        _ => Ok(()),
    }
}

fn write_first_other<T: PartialEq + fmt::Debug>(
    out: &mut fmt::Formatter,
    what: &str,
    expected: &[T],
    found: &[T],
) -> fmt::Result {
    match expected.iter().zip(found).enumerate().find(|(_, (e, f))| e != f) {
        None => Ok(()),
        Some((at, (expected, found))) => {
            write!(out, "\n{what} {at}, reference: {expected:?}\n{what} {at}, library: {found:?}")
        }
    }
}
