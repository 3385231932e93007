//! Deliberately changed answers, to see that the comparison finds them.

use reference::day::Day;
use reference::instalment_cases::Call;

use crate::changed_amounts::{change_amount, change_lines, up_to_real};
use crate::changed_blocked;
use crate::changed_days::{change_answer, change_applied, change_refused, day_asked, write_beside};
use crate::changed_instalments;
use crate::changed_loads;
use crate::implementation::{Answer, Factors, Implementation, Line, Margin};
use crate::list::List;

#[derive(Clone, Copy, Debug, PartialEq, Eq)]
pub enum Change {
    Total,
    LineCount,
    LineAmount,
    LeftOrder,
    RefusalNumber,
    RefusalRow,
    ListRefused,
    EntryAfterLines,
    EntryAfterList,
    ListOnRefusal,
    Amount,
    MissingRow,
    NoRowsRefused,
    Premiums,
    PremiumsRefused,
    LinesInCentavos,
    PairsInCentavos,
    LeftInCentavos,
    LinesDown,
    LinesNearest,
    MultiplesRaised,
    TotalInReais,
    TotalRoundedOnce,
    AmountInCentavos,
    HeldAmountInReais,
    PremiumsInReais,
    Fa,
    Fb,
    FaOfOneDay,
    Day1801,
    CodeCut,
    DaysCut,
    FactorsOnRefusal,
    DayTouchStrict,
    DayTouchLoose,
    DayOtherSeries,
    DayToggles,
    DayPv,
    DayPvHigh,
    DayCover,
    DayAgain,
    DayValue,
    DayRefusal,
    DayRefusalRow,
    DayReadingLast,
    DayOnRefusal,
    DaySeriesCut,
    DayPricesCut,
    DayBeside,
    BlockedPaired,
    BlockedRefused,
    BlockedAllRefused,
    BlockedAboveQ,
    BlockedAboveQSeven,
    BlockedWritten,
    BlockedWrittenEight,
    BlockedBigEndian,
    BlockedLowBits,
    LeftWithoutBlocked,
    LeftBlockedAlone,
    LeftBlockedApart,
    LeftOfSpentDropped,
    LeftOfAllBlockedDropped,
    LeftQ,
    RoomP,
    RoomOneLess,
    RoomBlockedAlone,
    RoomRefused,
    AmountWithoutBlocked,
    PremiumsWithoutBlocked,
    DayBlocked,
    DayBlockedTouched,
    PairAll,
    PairOneMore,
    PairOneAtMost,
    PairZeroMakesOne,
    PairAllowanceCut,
    PairCountCut,
    PairEntryAfter,
    PairFromZero,
    PairBackwards,
    PairBesideList,
    PairLeftLines,
    PairValueSoFar,
    PairValueAllowed,
    PairOnRefusal,
    LinesNotLookedAt,
    FirstLineOnly,
    LastLineOnly,
    LineKindIgnored,
    LineAmountIgnored,
    LeftLineCounted,
    LinesBeforeList,
    LinesBeforeReading,
    LinesRefusalRow,
    LinesRefusalValue,
    LinesRefusalNumber,
    SoFarWithoutPremiums,
    SoFarPairsAlone,
    SoFarLeftAlone,
    SoFarTotal,
    SoFarOnePairLess,
    SoFarWritesList,
    PairBlocked,
    PairRoomP,
    SoFarRoomP,
    SoFarWithoutBlocked,
    ApartAll,
    ApartZeroTakesOne,
    ApartKCut,
    ApartCountCut,
    ApartCapped,
    ApartAtCountRefused,
    ApartFirstKept,
    ApartLastKept,
    ApartNotCleared,
    ApartKindAlone,
    ApartKindKept,
    ApartEntryBefore,
    ApartEntryAfter,
    ApartFromFirst,
    ApartMoved,
    ApartBesideList,
    ApartCountKept,
    ApartValueTaken,
    ApartAnyLines,
    ApartLatestLinesOnly,
    ApartOtherLinesOnly,
    ApartBeforeLines,
    ApartBeforeList,
    ApartBeforeReading,
    ApartRefusalRow,
    ApartRefusalValue,
    ApartRefusalNumber,
    ApartOnRefusal,
    ApartOnOtherLines,
    ApartRoomP,
    LoadSeedCut,
    LoadSeedZero,
    LoadSeedEnd,
    LoadPCut,
    LoadPZero,
    LoadPMore,
    LoadBytesCut,
    LoadStateBefore,
    LoadStepMore,
    LoadDrawsSwapped,
    LoadTypeFirst,
    LoadRowsAlike,
    LoadLastRow,
    LoadRow256,
    LoadGreatestSeed,
    LoadFlags,
    LoadNoFlags,
    LoadSpareKept,
    LoadSeriesSpareKept,
    LoadPremiumKept,
    LoadKindZero,
    LoadDistance,
    LoadLastFourKept,
    LoadRoomShort,
    LoadRoomAny,
    LoadRoomExact,
    LoadRoomRefused,
    LoadByteAfter,
    LoadRestZeroed,
    LoadAtEnd,
    LoadBeside,
    LoadValueRoom,
    LoadValueRows,
    LoadRefusalNumber,
    LoadRefusalRow,
    LoadRefusalValue,
    LoadOnRefusal,
    LoadShortWritten,
    LoadLines,
    FileWritten,
    ReadingOutside,
}

pub const CHANGES: [(&str, Change); 178] = [
    ("total", Change::Total),
    ("line-count", Change::LineCount),
    ("line-amount", Change::LineAmount),
    ("left-order", Change::LeftOrder),
    ("refusal-number", Change::RefusalNumber),
    ("refusal-row", Change::RefusalRow),
    ("list-refused", Change::ListRefused),
    ("entry-after-lines", Change::EntryAfterLines),
    ("entry-after-list", Change::EntryAfterList),
    ("list-on-refusal", Change::ListOnRefusal),
    ("amount", Change::Amount),
    ("missing-row", Change::MissingRow),
    ("no-rows-refused", Change::NoRowsRefused),
    ("premiums", Change::Premiums),
    ("premiums-refused", Change::PremiumsRefused),
    ("lines-in-centavos", Change::LinesInCentavos),
    ("pairs-in-centavos", Change::PairsInCentavos),
    ("left-in-centavos", Change::LeftInCentavos),
    ("lines-down", Change::LinesDown),
    ("lines-nearest", Change::LinesNearest),
    ("multiples-raised", Change::MultiplesRaised),
    ("total-in-reais", Change::TotalInReais),
    ("total-rounded-once", Change::TotalRoundedOnce),
    ("amount-in-centavos", Change::AmountInCentavos),
    ("held-amount-in-reais", Change::HeldAmountInReais),
    ("premiums-in-reais", Change::PremiumsInReais),
    ("fa", Change::Fa),
    ("fb", Change::Fb),
    ("fa-of-one-day", Change::FaOfOneDay),
    ("day-1801", Change::Day1801),
    ("code-cut", Change::CodeCut),
    ("days-cut", Change::DaysCut),
    ("factors-on-refusal", Change::FactorsOnRefusal),
    ("day-touch-strict", Change::DayTouchStrict),
    ("day-touch-loose", Change::DayTouchLoose),
    ("day-other-series", Change::DayOtherSeries),
    ("day-toggles", Change::DayToggles),
    ("day-pv", Change::DayPv),
    ("day-pv-high", Change::DayPvHigh),
    ("day-cover", Change::DayCover),
    ("day-again", Change::DayAgain),
    ("day-value", Change::DayValue),
    ("day-refusal", Change::DayRefusal),
    ("day-refusal-row", Change::DayRefusalRow),
    ("day-reading-last", Change::DayReadingLast),
    ("day-on-refusal", Change::DayOnRefusal),
    ("day-series-cut", Change::DaySeriesCut),
    ("day-prices-cut", Change::DayPricesCut),
    ("day-beside", Change::DayBeside),
    ("blocked-paired", Change::BlockedPaired),
    ("blocked-refused", Change::BlockedRefused),
    ("blocked-all-refused", Change::BlockedAllRefused),
    ("blocked-above-q", Change::BlockedAboveQ),
    ("blocked-above-q-seven", Change::BlockedAboveQSeven),
    ("blocked-written", Change::BlockedWritten),
    ("blocked-written-eight", Change::BlockedWrittenEight),
    ("blocked-big-endian", Change::BlockedBigEndian),
    ("blocked-low-bits", Change::BlockedLowBits),
    ("left-without-blocked", Change::LeftWithoutBlocked),
    ("left-blocked-alone", Change::LeftBlockedAlone),
    ("left-blocked-apart", Change::LeftBlockedApart),
    ("left-of-spent-dropped", Change::LeftOfSpentDropped),
    ("left-of-all-blocked-dropped", Change::LeftOfAllBlockedDropped),
    ("left-q", Change::LeftQ),
    ("room-p", Change::RoomP),
    ("room-one-less", Change::RoomOneLess),
    ("room-blocked-alone", Change::RoomBlockedAlone),
    ("room-refused", Change::RoomRefused),
    ("amount-without-blocked", Change::AmountWithoutBlocked),
    ("premiums-without-blocked", Change::PremiumsWithoutBlocked),
    ("day-blocked", Change::DayBlocked),
    ("day-blocked-touched", Change::DayBlockedTouched),
    ("pair-all", Change::PairAll),
    ("pair-one-more", Change::PairOneMore),
    ("pair-one-at-most", Change::PairOneAtMost),
    ("pair-zero-makes-one", Change::PairZeroMakesOne),
    ("pair-allowance-cut", Change::PairAllowanceCut),
    ("pair-count-cut", Change::PairCountCut),
    ("pair-entry-after", Change::PairEntryAfter),
    ("pair-from-zero", Change::PairFromZero),
    ("pair-backwards", Change::PairBackwards),
    ("pair-beside-list", Change::PairBesideList),
    ("pair-left-lines", Change::PairLeftLines),
    ("pair-value-so-far", Change::PairValueSoFar),
    ("pair-value-allowed", Change::PairValueAllowed),
    ("pair-on-refusal", Change::PairOnRefusal),
    ("lines-not-looked-at", Change::LinesNotLookedAt),
    ("first-line-only", Change::FirstLineOnly),
    ("last-line-only", Change::LastLineOnly),
    ("line-kind-ignored", Change::LineKindIgnored),
    ("line-amount-ignored", Change::LineAmountIgnored),
    ("left-line-counted", Change::LeftLineCounted),
    ("lines-before-list", Change::LinesBeforeList),
    ("lines-before-reading", Change::LinesBeforeReading),
    ("lines-refusal-row", Change::LinesRefusalRow),
    ("lines-refusal-value", Change::LinesRefusalValue),
    ("lines-refusal-number", Change::LinesRefusalNumber),
    ("so-far-without-premiums", Change::SoFarWithoutPremiums),
    ("so-far-pairs-alone", Change::SoFarPairsAlone),
    ("so-far-left-alone", Change::SoFarLeftAlone),
    ("so-far-total", Change::SoFarTotal),
    ("so-far-one-pair-less", Change::SoFarOnePairLess),
    ("so-far-writes-list", Change::SoFarWritesList),
    ("pair-blocked", Change::PairBlocked),
    ("pair-room-p", Change::PairRoomP),
    ("so-far-room-p", Change::SoFarRoomP),
    ("so-far-without-blocked", Change::SoFarWithoutBlocked),
    ("apart-all", Change::ApartAll),
    ("apart-zero-takes-one", Change::ApartZeroTakesOne),
    ("apart-k-cut", Change::ApartKCut),
    ("apart-count-cut", Change::ApartCountCut),
    ("apart-capped", Change::ApartCapped),
    ("apart-at-count-refused", Change::ApartAtCountRefused),
    ("apart-first-kept", Change::ApartFirstKept),
    ("apart-last-kept", Change::ApartLastKept),
    ("apart-not-cleared", Change::ApartNotCleared),
    ("apart-kind-alone", Change::ApartKindAlone),
    ("apart-kind-kept", Change::ApartKindKept),
    ("apart-entry-before", Change::ApartEntryBefore),
    ("apart-entry-after", Change::ApartEntryAfter),
    ("apart-from-first", Change::ApartFromFirst),
    ("apart-moved", Change::ApartMoved),
    ("apart-beside-list", Change::ApartBesideList),
    ("apart-count-kept", Change::ApartCountKept),
    ("apart-value-taken", Change::ApartValueTaken),
    ("apart-any-lines", Change::ApartAnyLines),
    ("apart-latest-lines-only", Change::ApartLatestLinesOnly),
    ("apart-other-lines-only", Change::ApartOtherLinesOnly),
    ("apart-before-lines", Change::ApartBeforeLines),
    ("apart-before-list", Change::ApartBeforeList),
    ("apart-before-reading", Change::ApartBeforeReading),
    ("apart-refusal-row", Change::ApartRefusalRow),
    ("apart-refusal-value", Change::ApartRefusalValue),
    ("apart-refusal-number", Change::ApartRefusalNumber),
    ("apart-on-refusal", Change::ApartOnRefusal),
    ("apart-on-other-lines", Change::ApartOnOtherLines),
    ("apart-room-p", Change::ApartRoomP),
    ("load-seed-cut", Change::LoadSeedCut),
    ("load-seed-zero", Change::LoadSeedZero),
    ("load-seed-end", Change::LoadSeedEnd),
    ("load-p-cut", Change::LoadPCut),
    ("load-p-zero", Change::LoadPZero),
    ("load-p-more", Change::LoadPMore),
    ("load-bytes-cut", Change::LoadBytesCut),
    ("load-state-before", Change::LoadStateBefore),
    ("load-step-more", Change::LoadStepMore),
    ("load-draws-swapped", Change::LoadDrawsSwapped),
    ("load-type-first", Change::LoadTypeFirst),
    ("load-rows-alike", Change::LoadRowsAlike),
    ("load-last-row", Change::LoadLastRow),
    ("load-row-256", Change::LoadRow256),
    ("load-greatest-seed", Change::LoadGreatestSeed),
    ("load-flags", Change::LoadFlags),
    ("load-no-flags", Change::LoadNoFlags),
    ("load-spare-kept", Change::LoadSpareKept),
    ("load-series-spare-kept", Change::LoadSeriesSpareKept),
    ("load-premium-kept", Change::LoadPremiumKept),
    ("load-kind-zero", Change::LoadKindZero),
    ("load-distance", Change::LoadDistance),
    ("load-last-four-kept", Change::LoadLastFourKept),
    ("load-room-short", Change::LoadRoomShort),
    ("load-room-any", Change::LoadRoomAny),
    ("load-room-exact", Change::LoadRoomExact),
    ("load-room-refused", Change::LoadRoomRefused),
    ("load-byte-after", Change::LoadByteAfter),
    ("load-rest-zeroed", Change::LoadRestZeroed),
    ("load-at-end", Change::LoadAtEnd),
    ("load-beside", Change::LoadBeside),
    ("load-value-room", Change::LoadValueRoom),
    ("load-value-rows", Change::LoadValueRows),
    ("load-refusal-number", Change::LoadRefusalNumber),
    ("load-refusal-row", Change::LoadRefusalRow),
    ("load-refusal-value", Change::LoadRefusalValue),
    ("load-on-refusal", Change::LoadOnRefusal),
    ("load-short-written", Change::LoadShortWritten),
    ("load-lines", Change::LoadLines),
    ("file-written", Change::FileWritten),
    ("reading-outside", Change::ReadingOutside),
];

/// Places in an entry.
const KIND: usize = 0;
const FOURTH: usize = 4;

/// An implementation with one change wherever it applies.
pub struct Changed<'a> {
    pub of: &'a dyn Implementation,
    pub change: Change,
}

impl Implementation for Changed<'_> {
    fn margin(&self, file: &[u8], entries: &mut [Line], room: usize) -> Margin {
        touch(file, self.change);
        let mut margin = self.margin_of_blocked(file, entries, room);
        let lines = margin.lines as usize;
        if lines > room {
            // Of a list too short for them, which the change has taken.
            return margin;
        }
        if margin.refusal == 0 {
            change_lines(self.change, file, &mut margin, entries);
            change_accepted(self.change, &mut margin, entries);
            changed_loads::change_lines(self.change, file, &mut margin);
        } else {
            change_list_refused(self.change, &mut margin, entries, room);
        }
        match self.change {
            Change::EntryAfterLines if margin.refusal == 0 && lines < room => {
                entries[lines][KIND] = 0;
            }
            Change::EntryAfterList => entries[room][FOURTH] = 0,
            _ => {}
        }
        margin
    }

    fn position_amount(&self, file: &[u8], row: u64) -> i64 {
        touch(file, self.change);
        match (self.change, self.of.position_amount(file, row)) {
            (Change::Amount, amount) if amount > 0 => amount - 1,
            (Change::MissingRow, -13) => 0,
            (Change::AmountWithoutBlocked, amount) => {
                changed_blocked::change_amount(self.change, file, row, amount)
            }
            (change, amount) => change_amount(change, file, row, amount),
        }
    }

    fn premiums(&self, file: &[u8]) -> Answer {
        touch(file, self.change);
        let answer = self.of.premiums(file);
        match self.change {
            Change::Premiums if answer.value > 0 => Answer { value: answer.value - 1, ..answer },
            Change::PremiumsRefused => Answer { refusal: 0, ..answer },
            Change::PremiumsInReais => Answer { value: up_to_real(answer.value), ..answer },
            Change::PremiumsWithoutBlocked => {
                changed_blocked::without_blocked_premiums(file, answer)
            }
            _ => answer,
        }
    }

    fn factors(&self, code: u64, days: u64) -> Factors {
        let low_half = |number: u64| number % (1 << 32);
        let factors = match self.change {
            Change::CodeCut => self.of.factors(low_half(code), days),
            Change::DaysCut => self.of.factors(code, low_half(days)),
            Change::Day1801 if days == 1_801 => self.of.factors(code, 1_800),
            _ => self.of.factors(code, days),
        };
        match self.change {
            Change::Fa if factors.fa > 0 => Factors { fa: factors.fa + 1, ..factors },
            Change::Fb if factors.fb > 0 => Factors { fb: factors.fb - 1, ..factors },
            Change::FaOfOneDay if (code, days) == (2, 1_234) => {
                Factors { fa: factors.fa + 1, ..factors }
            }
            Change::FactorsOnRefusal if factors.refusal > 0 => Factors { fa: 1, ..factors },
            _ => factors,
        }
    }

    fn day(&self, file: &mut [u8], day: &Day) -> Answer {
        let before = file.to_vec();
        let asked = day_asked(self.change, day);
        let answer = self.of.day(file, &asked);
        match answer.refusal {
            0 => {
                change_applied(self.change, &before, file, &asked);
                changed_blocked::change_day(self.change, &before, file);
            }
            _ => change_refused(self.change, file),
        }
        if self.change == Change::DayBeside {
            write_beside(file);
        }
        change_answer(self.change, day, answer)
    }

    fn call(&self, file: &[u8], list: &mut List, call: Call) -> Answer {
        touch(file, self.change);
        changed_instalments::answer(self.change, self.of, file, list, call)
    }

    fn load(&self, seed: u64, p: u64, buffer: &mut [u8]) -> Answer {
        changed_loads::answer(self.change, self.of, (seed, p), buffer)
    }
}

impl Changed<'_> {
    /// The margin with the changes of blocked contracts and of the list's length.
    fn margin_of_blocked(&self, file: &[u8], entries: &mut [Line], room: usize) -> Margin {
        let refused = |number: u64, row: u64| Margin { refusal: number, row, lines: 0, total: 0 };
        if let Some(refusal) = changed_blocked::other_refusal(self.change, file) {
            return refused(refusal.number as u64, refusal.row as u64);
        }
        let other = changed_blocked::file_read(self.change, file);
        let file = other.as_deref().unwrap_or(file);
        if changed_blocked::refuses_room(self.change, file, room) {
            return refused(12, 0);
        }
        let mut margin = self.of.margin(file, entries, room);
        if margin.refusal == 12 && changed_blocked::room_enough(self.change, file, room) {
            margin = changed_blocked::margin_in(self.of, file, &mut entries[..room]);
        } else if margin.refusal == 0 {
            let list = &mut entries[..room];
            changed_blocked::change_left_lines(self.change, file, &mut margin, list);
        }
        margin
    }
}

fn change_accepted(change: Change, margin: &mut Margin, entries: &mut [Line]) {
    let lines = margin.lines as usize;
    match change {
        Change::Total => margin.total += 1,
        // One less, or one where there is none.
        Change::LineCount => margin.lines = margin.lines.checked_sub(1).unwrap_or(1),
        Change::LineAmount if entries[0][KIND] == 1 => entries[0][FOURTH] += 1,
        Change::LeftOrder if lines >= 2 && entries[lines - 2][KIND] == 2 => {
            entries.swap(lines - 2, lines - 1);
        }
        // An account has no lines where it has no positions; this number was given for that.
        Change::NoRowsRefused if lines == 0 => margin.refusal = 3,
        _ => {}
    }
}

fn change_list_refused(change: Change, margin: &mut Margin, entries: &mut [Line], room: usize) {
    match change {
        Change::RefusalNumber if margin.refusal == 9 => margin.refusal = 8,
        Change::RefusalRow if margin.row > 0 => margin.row -= 1,
        Change::ListRefused if margin.refusal == 12 => margin.refusal = 0,
        Change::ListOnRefusal if room > 0 => entries[0][KIND] = 1,
        _ => {}
    }
}

/// What a library must not do with a file lent to it.
fn touch(file: &[u8], change: Change) {
    match change {
        // SAFETY: none. The memory lent to the library bears being written to.
        Change::FileWritten if !file.is_empty() => unsafe {
            file.as_ptr().cast_mut().write_volatile(!file[0]);
        },
        // SAFETY: none. Reading there is to end the program.
        Change::ReadingOutside => unsafe {
            file.as_ptr().add(file.len()).read_volatile();
        },
        _ => {}
    }
}
