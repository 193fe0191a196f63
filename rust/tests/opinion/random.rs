//! Random sheets against the naive judges, and the meaning of what is answered.

use crate::common::{self, answer, Answer, Line, Random};
use crate::naive::{some_values_hold, table_holds};
use second::meaning::broken;
use second::random::families::FAMILIES;
use second::sheet::{self, Record};
use second::{Panel, Shortcut};

fn chosen(entries: &[Line], choose: impl Fn(usize) -> bool) -> Vec<Line> {
    let entries = entries.iter().enumerate();
    entries
        .filter(|&(entry, _)| choose(entry))
        .map(|(_, &line)| line)
        .collect()
}

#[test]
fn tiny_sheets_get_the_verdict_and_the_first_list_that_trying_every_value_gives() {
    let mut random = Random(1);
    let mut panel = Panel::new();
    let (mut held, mut clashed) = (0, 0);
    for _ in 0..4_000 {
        let (t, l) = (1 + random.below(4), random.below(6));
        let terms = random.terms(t, 1);
        let entries = random.entries(l, t, 1);
        let bytes = common::sheet(&terms, &entries);
        // As a number with a bit for each entry, the first list is the lowest that clashes.
        let first = (0..1 << l).find(|set| {
            !some_values_hold(&terms, &chosen(&entries, |entry| set >> entry & 1 == 1))
        });
        let told = format!("terms {terms:?}, entries {entries:?}");
        match (answer(&mut panel, &bytes), first) {
            (Answer::Holds(d, n), None) => {
                assert_eq!(broken(&bytes, d, &n), None, "{told}");
                held += 1;
            }
            (Answer::Clashes(list), Some(first)) => {
                let list: u32 = list.iter().map(|entry| 1 << entry).sum();
                assert_eq!(list, first, "{told}");
                clashed += 1;
            }
            (given, first) => panic!("{given:?}, but the first list is {first:?}: {told}"),
        }
    }
    assert!(
        held > 500 && clashed > 500,
        "{held} held, {clashed} clashed"
    );
}

#[test]
fn both_naive_judges_agree_on_tiny_sheets() {
    let mut random = Random(2);
    for _ in 0..10_000 {
        let (t, l) = (1 + random.below(4), random.below(7));
        let terms = random.terms(t, 1);
        let entries = random.entries(l, t, 1);
        assert_eq!(
            some_values_hold(&terms, &entries),
            table_holds(&terms, &entries),
            "terms {terms:?}, entries {entries:?}"
        );
    }
}

/// Checks an answer whole: values against the meaning, a list against the table. A list is the
/// first if it clashes, and if without any one of its entries, the higher ones of the list and all
/// the lower ones together hold.
fn check(panel: &mut Panel, terms: &[Line], entries: &[Line]) -> bool {
    let bytes = common::sheet(terms, entries);
    let told = || format!("terms {terms:?}, entries {entries:?}");
    match answer(panel, &bytes) {
        Answer::Holds(d, n) => {
            assert_eq!(broken(&bytes, d, &n), None, "{}", told());
            true
        }
        Answer::Clashes(list) => {
            let listed = |entry: usize| list.contains(&(entry as u8));
            assert!(
                !table_holds(terms, &chosen(entries, listed)),
                "{list:?}, {}",
                told()
            );
            for &needed in &list {
                let needed = usize::from(needed);
                let rest = |entry| entry < needed || entry > needed && listed(entry);
                assert!(
                    table_holds(terms, &chosen(entries, rest)),
                    "{list:?}, {}",
                    told()
                );
            }
            false
        }
        Answer::Refused(number, place) => panic!("refused {number} at {place}, {}", told()),
    }
}

#[test]
fn larger_sheets_get_values_that_keep_the_meaning_or_the_first_list() {
    let mut random = Random(3);
    let mut panel = Panel::new();
    let (mut held, mut clashed) = (0, 0);
    for round in 0..8_000 {
        let (t, l) = (1 + random.below(20), random.below(30));
        let most = [0, 1, 3][round % 3];
        let mut terms = random.terms(t, most);
        let mut entries = random.entries(l, t, most);
        match round % 4 {
            0 => {}
            1 => entries = random.true_entries(l, &terms, 4),
            2 => entries = random.true_entries(l, &terms, 12),
            _ => (terms, entries) = random.squeezed(t, l),
        }
        if check(&mut panel, &terms, &entries) {
            held += 1;
        } else {
            clashed += 1;
        }
    }
    assert!(
        held > 1_000 && clashed > 1_000,
        "{held} held, {clashed} clashed"
    );
}

#[test]
fn the_largest_sheets_get_values_that_keep_the_meaning_or_the_first_list() {
    let mut random = Random(4);
    let mut panel = Panel::new();
    let (mut held, mut clashed) = (0, 0);
    for round in 0..360 {
        let most = [1, 1_000, 32_767][round % 3];
        let size = [64, 65, 128][round / 3 % 3];
        let terms = random.terms(size, most);
        let entries = match round % 4 {
            0 => random.entries(size, size, most),
            _ => random.true_entries(size, &terms, 100),
        };
        if check(&mut panel, &terms, &entries) {
            held += 1;
        } else {
            clashed += 1;
        }
    }
    assert!(held > 60 && clashed > 60, "{held} held, {clashed} clashed");
}

#[test]
fn a_large_sheet_of_every_family_gets_values_that_keep_the_meaning_or_the_first_list() {
    let line = |record: Record| (record.kind, record.symbol, record.a, record.b, record.c);
    let mut panel = Panel::new();
    for family in &FAMILIES[..12] {
        let sheets = (0..).map(|number| family.sheet(6, number));
        let mut large = sheets.filter(|sheet| sheet[3] > 64 && sheet[4] > 64);
        let large = large.next().expect("there are large ones");
        let terms: Vec<Line> = sheet::terms(&large).map(line).collect();
        let entries: Vec<Line> = sheet::entries(&large).map(line).collect();
        check(&mut panel, &terms, &entries);
    }
}

#[test]
fn values_keep_the_meaning_on_many_sheets_that_hold() {
    let mut random = Random(5);
    let mut panel = Panel::new();
    for round in 0..50_000 {
        let (t, l) = (1 + random.below(128), random.below(129));
        let terms = random.terms(t, [1, 3, 1_000, 32_767][round % 4]);
        let entries = random.true_entries(l, &terms, usize::MAX);
        let bytes = common::sheet(&terms, &entries);
        match answer(&mut panel, &bytes) {
            Answer::Holds(d, n) => assert_eq!(broken(&bytes, d, &n), None, "{bytes:?}"),
            other => panic!("{other:?}, but every entry is true: {bytes:?}"),
        }
    }
}

#[test]
fn chains_as_long_and_as_steep_as_can_be_stay_within_the_limits() {
    let mut random = Random(6);
    let mut panel = Panel::new();
    for (kind, c) in [
        (0, 32_767),
        (2, 32_767),
        (3, -32_768),
        (2, -32_768),
        (0, -32_768),
    ] {
        // A tower of shifts on an unknown, then unknowns in a chain, the entries in any order.
        let shifts = random.below(100) as u8;
        let mut terms: Vec<Line> = vec![(0, 0, 0, 0, 0)];
        terms.extend((0..shifts).map(|own| (2, 0, own, 0, c)));
        terms.resize(128, (0, 0, 0, 0, 0));
        let next = |own| (kind, 0, own, own + 1, c);
        let mut entries: Vec<Line> = (shifts..127).map(next).collect();
        for last in (1..entries.len()).rev() {
            entries.swap(last, random.below(last + 1));
        }
        assert!(check(&mut panel, &terms, &entries));
        entries.push((3, 0, 127, 0, c.saturating_neg()));
        check(&mut panel, &terms, &entries);
    }
}

#[test]
fn each_shortcut_comes_back_from_random_sheets_and_is_caught() {
    for shortcut in Shortcut::ALL {
        let mut random = Random(7);
        let mut honest = Panel::new();
        let mut panel = Panel::with(shortcut);
        let mut caught = 0;
        for round in 0..20_000 {
            let (t, l) = (1 + random.below(16), random.below(30));
            let (terms, entries) = if round % 2 == 0 {
                random.squeezed(t, l)
            } else {
                let terms = random.terms(t, 2);
                let entries = random.true_entries(l, &terms, 10);
                (terms, entries)
            };
            let bytes = common::sheet(&terms, &entries);
            caught += match (answer(&mut panel, &bytes), answer(&mut honest, &bytes)) {
                (Answer::Holds(d, n), Answer::Holds(..)) => {
                    usize::from(broken(&bytes, d, &n).is_some())
                }
                (taken, right) => usize::from(taken != right),
            };
        }
        assert!(caught > 0, "{} was never caught", shortcut.name());
    }
}
