//! Sheets with terms and entries on both sides of number 64, where a set in one word would end.

use crate::common::{answer, sheet, Answer, Line, Random};
use second::meaning::broken;
use second::{Panel, Shortcut};

const UNKNOWN: Line = (0, 0, 0, 0, 0);

/// 128 entries on 128 terms: those that are named, and between them loose bounds, which tie nothing.
fn entries(named: &[(usize, Line)]) -> Vec<Line> {
    let loose = |own| (2, 0, own, own ^ 37, 100);
    let mut entries: Vec<Line> = (0..128).map(loose).collect();
    for &(at, line) in named {
        entries[at] = line;
    }
    entries
}

fn clashes(terms: &[Line], named: &[(usize, Line)], list: &[u8]) {
    let bytes = sheet(terms, &entries(named));
    let got = answer(&mut Panel::new(), &bytes);
    assert_eq!(got, Answer::Clashes(list.to_vec()), "{named:?}");
    // Without any one of the list it holds.
    for &left_out in list {
        let mut entries = entries(named);
        entries[usize::from(left_out)] = (2, 0, 0, 0, 0);
        holds(terms, &entries);
    }
}

fn holds(terms: &[Line], entries: &[Line]) {
    let bytes = sheet(terms, entries);
    match answer(&mut Panel::new(), &bytes) {
        Answer::Holds(d, n) => assert_eq!(broken(&bytes, d, &n), None),
        other => panic!("{other:?}: {entries:?}"),
    }
}

fn at_most(a: u8, b: u8) -> Line {
    (2, 0, a, b, 0)
}

#[test]
fn lists_have_entries_from_both_sides_of_64() {
    let terms = [UNKNOWN; 128];
    let round = [
        at_most(0, 63),
        at_most(63, 64),
        at_most(64, 127),
        (3, 0, 127, 0, 0),
    ];
    for numbers in [
        [3, 63, 64, 127],
        [0, 1, 2, 127],
        [0, 64, 65, 66],
        [60, 61, 62, 63],
        [64, 65, 66, 67],
        [124, 125, 126, 127],
        [127, 64, 63, 0],
    ] {
        let named: Vec<(usize, Line)> = numbers.into_iter().zip(round).collect();
        let mut list = numbers.map(|number| number as u8);
        list.sort_unstable();
        clashes(&terms, &named, &list);
    }
}

#[test]
fn an_entry_that_clashes_by_itself_may_be_any() {
    for own in [0, 62, 63, 64, 65, 126, 127] {
        clashes(&[UNKNOWN; 128], &[(own, (3, 0, 127, 127, 0))], &[own as u8]);
    }
}

#[test]
fn the_highest_entry_that_two_lists_dont_share_decides() {
    let terms = [UNKNOWN; 128];
    let itself = (1, 0, 64, 64, 0);
    let (there, back) = (at_most(63, 64), (3, 0, 64, 63, 0));
    for (named, list) in [
        // A list without 127 comes before one of 127 alone.
        (vec![(5, there), (126, back), (127, itself)], vec![5, 126]),
        (vec![(62, there), (63, back), (64, itself)], vec![62, 63]),
        // With 127 in both, 126 decides, and so on down to 0.
        (
            vec![(125, there), (126, there), (127, back)],
            vec![125, 127],
        ),
        (vec![(63, there), (64, there), (127, back)], vec![63, 127]),
        (vec![(0, there), (64, there), (127, back)], vec![0, 127]),
        (vec![(0, there), (1, there), (64, back)], vec![0, 64]),
        // Of two that begin alike the one that ends earlier.
        (vec![(0, there), (63, back), (64, back)], vec![0, 63]),
        (vec![(0, there), (126, back), (127, back)], vec![0, 126]),
    ] {
        let bytes = sheet(&terms, &entries(&named));
        assert_eq!(
            answer(&mut Panel::new(), &bytes),
            Answer::Clashes(list),
            "{named:?}"
        );
    }
}

#[test]
fn a_longer_list_of_lower_entries_comes_before_entry_127_alone() {
    // As sheet 6: 127 unknowns in a round, the last entry a clash by itself.
    let mut entries: Vec<Line> = (0..126).map(|own| at_most(own, own + 1)).collect();
    entries.push((3, 0, 126, 0, 0));
    entries.push((1, 0, 0, 0, 0));
    let bytes = sheet(&[UNKNOWN; 127], &entries);
    let list = Answer::Clashes((0..127).collect());
    assert_eq!(answer(&mut Panel::new(), &bytes), list);
}

/// Unknowns 0 to 63, and behind them f of each, which is 64 more.
fn applied() -> Vec<Line> {
    let applied = |own| (3, 7, own, 0, 0);
    (0..64)
        .map(|_| UNKNOWN)
        .chain((0..64).map(applied))
        .collect()
}

#[test]
fn applications_past_the_64th_term_are_tied() {
    // x62 = x63 by two bounds, so the last two terms are equal.
    let named = [
        (1, at_most(62, 63)),
        (126, at_most(63, 62)),
        (64, (1, 0, 126, 127, 0)),
    ];
    clashes(&applied(), &named, &[1, 64, 126]);
    // And f(x0), term 64, with f(x63), term 127.
    let named = [(100, (0, 0, 0, 63, 0)), (2, (3, 0, 64, 127, 0))];
    clashes(&applied(), &named, &[2, 100]);
}

#[test]
fn ties_go_to_and_fro_between_both_halves_of_the_terms() {
    // x0 = x1, so f(x0) = f(x1), between which x2 is squeezed, so f(x2) = f(f(x0)) ..
    let mut terms = applied();
    terms[63] = (3, 7, 0, 0, 0);
    terms[127] = (3, 7, 63, 0, 0);
    let named = [
        (127, at_most(0, 1)),
        (0, at_most(1, 0)),
        (64, at_most(64, 2)),
        (63, at_most(2, 65)),
        (90, (1, 0, 66, 127, 0)),
    ];
    clashes(&terms, &named, &[0, 63, 64, 90, 127]);
}

#[test]
fn a_round_of_128_ties_every_point() {
    let round = |own: u8| at_most(own, (own + 1) % 128);
    let mut entries: Vec<Line> = (0..128).map(round).collect();
    holds(&[UNKNOWN; 128], &entries);
    // Two of them unequal, the round a point shorter: every entry is needed.
    for (a, b) in [(0, 63), (63, 64), (64, 126), (126, 0)] {
        entries.truncate(126);
        entries.push(at_most(126, 0));
        entries.push((1, 0, a, b, 0));
        let bytes = sheet(&[UNKNOWN; 127], &entries);
        let list = Answer::Clashes((0..128).collect());
        assert_eq!(answer(&mut Panel::new(), &bytes), list, "{a} and {b}");
    }
}

#[test]
fn a_tower_of_127_floors_comes_back_to_itself() {
    // Each term is f of the one before, and x = f(f(x)) by the first entry and the last.
    let mut terms = vec![UNKNOWN];
    terms.extend((0..127).map(|own| (3, 7, own, 0, 0)));
    let back = [(0, at_most(0, 2)), (127, at_most(2, 0))];
    let unequal = |a, b| [&back[..], &[(63, (1, 0, a, b, 0))]].concat();
    clashes(&terms, &unequal(127, 1), &[0, 63, 127]);
    clashes(&terms, &unequal(126, 64), &[0, 63, 127]);
    // An even floor and an odd one needn't be equal.
    holds(&terms, &entries(&unequal(126, 1)));
    holds(&terms, &entries(&unequal(127, 64)));
}

#[test]
fn every_shortcut_can_be_taken_on_the_largest_sheets() {
    let mut random = Random(8);
    for shortcut in Shortcut::ALL {
        let mut panel = Panel::with(shortcut);
        for round in 0..20 {
            let terms = match round % 2 {
                0 => random.terms(128, 2),
                // Shifts only, each of which a shortcut keeps in place by two bounds.
                _ => {
                    let shifts = (1..128).map(|own| (2, 0, own / 2, 0, 1));
                    [UNKNOWN].into_iter().chain(shifts).collect()
                }
            };
            let entries = random.true_entries(128, &terms, 40);
            answer(&mut panel, &sheet(&terms, &entries));
        }
    }
}
