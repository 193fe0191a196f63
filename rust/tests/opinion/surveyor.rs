//! The surveyor's answers: which comes first, and at which place.

use crate::common::{sheet, Line};
use second::random::surveys::{Case, SURVEYS};
use second::reason::{Bound, Slip, Step, Surveyor};

const UNKNOWN: Line = (0, 0, 0, 0, 0);

/// x < x + 0 three times.
fn strict() -> Vec<u8> {
    sheet(&[UNKNOWN], &[(3, 0, 0, 0, 0); 3])
}

fn over(entry: u8) -> Step {
    Step::walk(0, vec![Bound::entry(entry)])
}

fn answer(sheet: &[u8], list: &[u8], steps: &[Step]) -> (u8, u32) {
    Surveyor::new().answer(sheet, list, steps)
}

#[test]
fn a_list_rises_and_lies_below_l_or_gets_27_at_0() {
    let answer = |list: &[u8]| answer(&strict(), list, &[over(1)]);
    assert_eq!(answer(&[1]), (0, 0));
    for list in [
        &[1, 1][..],
        &[2, 1],
        &[0, 2, 1],
        &[3],
        &[1, 3],
        &[255],
        &[3, 1],
    ] {
        assert_eq!(answer(list), (27, 0), "{list:?}");
    }
    // A list may be short of what is needed, or longer, or empty: then a step is wrong.
    for list in [&[][..], &[0], &[0, 1], &[0, 1, 2]] {
        assert_eq!(answer(list), (1, 0), "{list:?}");
    }
    // Without entries every number is too high.
    let none = sheet(&[UNKNOWN], &[]);
    assert_eq!(Surveyor::new().answer(&none, &[0], &[]), (27, 0));
    assert_eq!(Surveyor::new().answer(&none, &[], &[]), (1, 0));
}

#[test]
fn the_sheets_own_refusals_come_first_and_15_never() {
    let mut terms = strict();
    terms[7] = 1;
    let mut entries = strict();
    entries[4 * 6 + 1] = 1;
    for (sheet, refusal) in [
        (&strict()[..29], (10, 0)),
        (&terms, (13, 0)),
        (&entries, (14, 2)),
    ] {
        for list in [&[1][..], &[1, 0], &[9], &[]] {
            assert_eq!(answer(sheet, list, &[over(1)]), refusal, "{list:?}");
        }
    }
}

#[test]
fn the_place_is_the_first_wrong_step() {
    let answer = |steps: &[Step]| answer(&strict(), &[1], steps);
    let wrong = Step::by_functions(0, 0);
    assert_eq!(answer(&[]), (1, 0));
    assert_eq!(answer(&[wrong.clone(), wrong.clone(), over(1)]), (1, 0));
    assert_eq!(answer(&[over(1), wrong.clone()]), (1, 0));
    assert_eq!(answer(&[over(1), over(1)]), (1, 0));
    let number = sheet(&[(1, 0, 0, 0, 5); 2], &[(3, 0, 0, 0, 0)]);
    let tie = |own: u8| {
        let bound = Bound::term(own);
        Step::by_walks(own, 2, 5, vec![bound], vec![bound.back()])
    };
    let answer = |steps: &[Step]| Surveyor::new().answer(&number, &[0], steps);
    assert_eq!(answer(&[tie(0), tie(1), over(0)]), (0, 0));
    assert_eq!(answer(&[tie(0), tie(1)]), (1, 2));
    assert_eq!(answer(&[tie(0), over(0), tie(1)]), (1, 1));
    assert_eq!(answer(&[tie(0), tie(0), wrong]), (1, 1));
}

#[test]
fn every_slip_has_its_name_and_is_made_somewhere() {
    let cases = (0..400).flat_map(|number| SURVEYS.iter().map(move |family| (family, number)));
    let mut left = Slip::ALL.to_vec();
    for (family, number) in cases {
        let Case { sheet, list, steps } = family.case(3, number);
        let right = answer(&sheet, &list, &steps);
        left.retain(|&(slip, _)| Surveyor::with(slip).answer(&sheet, &list, &steps) == right);
    }
    assert!(left.is_empty(), "no case for {left:?}");
    for (slip, name) in Slip::ALL {
        assert_eq!(Slip::from_name(name), Some(slip));
    }
    assert_eq!(Slip::from_name("honest"), None);
}
