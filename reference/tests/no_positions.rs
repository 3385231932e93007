//! Accounts without positions: accepted where the rest is in order.

use reference::draft::{example, Draft, PositionDraft, SeriesDraft, CALL, PUT, WRITTEN};
use reference::lines::{margin, margin_into, premiums, Entry, Margin};
use reference::output::margin_output;
use reference::position::one_position;
use reference::reader::{read_account, Refusal};

const UNTOUCHED: Entry = [77; 5];

fn emptied(series_count: usize) -> Draft {
    Draft::new(vec![SeriesDraft::checked(CALL); series_count], vec![])
}

/// Without positions, with 1 and with 32 series, without and with a cover sheet.
fn accepted_files() -> Vec<Vec<u8>> {
    let rows = [
        SeriesDraft { pv: 0, ..SeriesDraft::checked(PUT) }.bytes(),
        PositionDraft::plain(9, WRITTEN, 0, 0).bytes(),
    ];
    let mut files = Vec::new();
    for series_count in [1, 32] {
        let draft = emptied(series_count);
        let longest = vec![255; 65_536 - draft.bytes().len()];
        for cover in [vec![], vec![0], rows.concat(), example().bytes(), longest] {
            files.push(Draft { cover, ..draft.clone() }.bytes());
        }
    }
    files
}

fn refusal(draft: &Draft) -> (i64, usize) {
    let Refusal { number, row } = read_account(&draft.bytes()).expect_err("refused");
    (number, row)
}

#[test]
fn no_lines_premium_0_and_total_0() {
    let nothing = Margin { pairs: vec![], left: vec![], premium: 0, total: 0 };
    for bytes in accepted_files() {
        let account = read_account(&bytes).expect("accepted");
        assert!(account.positions.is_empty());
        assert_eq!(margin(&account), nothing);
        assert_eq!(margin_output(&bytes), "premium 0\ntotal 0\n");
        assert_eq!(premiums(&bytes), Ok(0));
    }
}

/// The fewest bytes that are accepted: one series row and the trailer.
#[test]
fn the_shortest_file() {
    assert_eq!(emptied(1).bytes().len(), 36);
    assert_eq!(read_account(&emptied(1).bytes()).map(|account| account.series.len()), Ok(1));
}

#[test]
fn every_list_is_long_enough_and_stays() {
    for bytes in accepted_files() {
        assert_eq!(margin_into(&bytes, &mut []), Ok((0, 0)));
        for room in [1, 256] {
            let mut list = vec![UNTOUCHED; room];
            assert_eq!(margin_into(&bytes, &mut list), Ok((0, 0)));
            assert_eq!(list, vec![UNTOUCHED; room]);
        }
    }
}

#[test]
fn every_row_asked_for_is_refused() {
    for bytes in accepted_files() {
        for row in [0, 1, 255, 256, u64::MAX] {
            assert_eq!(one_position(&bytes, row), -13);
        }
    }
    // The file comes before the row.
    let mut wrong = emptied(1);
    wrong.series[0].pv = 0;
    assert_eq!(one_position(&wrong.bytes(), 0), -5);
    assert_eq!(one_position(&emptied(1).bytes()[1..], 0), -4);
}

#[test]
fn the_counts_and_the_last_bytes() {
    assert_eq!(refusal(&emptied(0)), (2, 0));
    assert_eq!(refusal(&emptied(33)), (2, 0));
    assert_eq!(refusal(&Draft { stated_s: Some(0), ..emptied(1) }), (2, 0));
    for at in 0..4 {
        for value in [1, 128, 255] {
            let mut draft = emptied(3);
            draft.last_four[at] = value;
            assert_eq!(refusal(&draft), (2, 0));
            // Before the distance, and before the series rows.
            draft.stated_distance = Some(0);
            draft.series[0].pv = 0;
            assert_eq!(refusal(&draft), (2, 0));
        }
    }
}

#[test]
fn the_distance() {
    let right = emptied(3).bytes().len() as u32;
    let stated_and_covered = |stated: u32, bytes: usize| Draft {
        stated_distance: Some(stated),
        cover: vec![0; bytes],
        ..emptied(3)
    };
    for stated in [0, 12, right - 1, right + 1, right - 24, right + 24, right + 32, u32::MAX] {
        assert_eq!(refusal(&stated_and_covered(stated, 0)), (4, 0));
        assert_eq!(refusal(&stated_and_covered(stated, 100)), (4, 0));
    }
    assert!(read_account(&stated_and_covered(right, 100).bytes()).is_ok());
    // Longer than the file.
    let whole = emptied(3).bytes();
    for cut in 1..=whole.len() - 12 {
        assert_eq!(read_account(&whole[cut..]), Err(Refusal { number: 4, row: 0 }));
    }
    // Before the series rows.
    let mut draft = stated_and_covered(right + 32, 100);
    draft.series[0].pv = 0;
    assert_eq!(refusal(&draft), (4, 0));
    // That of an account with positions, whose rows still stand there.
    assert_eq!(refusal(&Draft { stated_p: Some(0), ..example() }), (4, 0));
}

#[test]
fn the_series_rows_are_read() {
    for series_count in [1, 2, 32] {
        for row in [0, series_count - 1] {
            let mut draft = emptied(series_count);
            draft.series[row].type_byte = 2;
            assert_eq!(refusal(&draft), (6, row));
            draft.series[row].m = 1_001;
            assert_eq!(refusal(&draft), (5, row));
            draft.cover = example().bytes();
            assert_eq!(refusal(&draft), (5, row));
        }
    }
    // The first faulty row, whatever the number.
    let mut draft = emptied(3);
    draft.series[1].spare[0] = 1;
    draft.series[2].pv = 0;
    assert_eq!(refusal(&draft), (6, 1));
}

#[test]
fn lengths() {
    let cover = vec![0; 65_537 - emptied(1).bytes().len()];
    assert_eq!(refusal(&Draft { cover, ..emptied(1) }), (1, 0));
    assert_eq!(read_account(&emptied(1).bytes()[25..]), Err(Refusal { number: 1, row: 0 }));
}
