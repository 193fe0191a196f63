//! Reasons by hand: an example for each rule, the record byte by byte, and the writer's answers.

use crate::common::{sheet, Line};
use second::reason::{needless, survey, Bound, Lapse, Reason, Step, Writer, ROOM};
use std::fs;

const UNKNOWN: Line = (0, 0, 0, 0, 0);

fn e(number: u8) -> Bound {
    Bound::entry(number)
}

fn t(number: u8) -> Bound {
    Bound::term(number)
}

fn s(number: u8) -> Bound {
    Bound::tie(number)
}

/// A sheet and a list, of which steps may say that it clashes.
struct Example {
    sheet: Vec<u8>,
    list: Vec<u8>,
}

impl Example {
    fn new(terms: &[Line], entries: &[Line]) -> Example {
        Example {
            sheet: sheet(terms, entries),
            list: (0..entries.len() as u8).collect(),
        }
    }

    fn said(&self, steps: &[Step]) -> String {
        match survey(&self.sheet, &self.list, steps) {
            Ok(()) => String::from("yes"),
            Err(wrong) => wrong.to_string(),
        }
    }

    fn is(&self, said: &str, steps: &[Step]) {
        assert_eq!(self.said(steps), said, "{steps:?}");
    }
}

/// Sheet 1: x ≤ y, y ≤ x, f(x) ≠ f(y).
fn sheet_1() -> Example {
    Example::new(
        &[UNKNOWN, UNKNOWN, (3, 7, 0, 0, 0), (3, 7, 1, 0, 0)],
        &[(2, 0, 0, 1, 0), (2, 0, 1, 0, 0), (1, 0, 2, 3, 0)],
    )
}

fn reason_1() -> Vec<Step> {
    vec![
        Step::by_walks(0, 1, 0, vec![e(0)], vec![e(1)]),
        Step::by_functions(2, 3),
        Step::unequal(2),
    ]
}

#[test]
fn sheet_1_has_a_reason_of_three_steps() {
    let example = sheet_1();
    example.is("yes", &reason_1());
    // Either side may come first.
    let mut other = reason_1();
    other[0] = Step::by_walks(1, 0, 0, vec![e(1)], vec![e(0)]);
    other[1] = Step::by_functions(3, 2);
    example.is("yes", &other);
}

#[test]
fn where_no_step_closes_the_one_after_the_last_is_wrong() {
    let example = sheet_1();
    example.is("step 0: no step closes", &[]);
    example.is("step 2: no step closes", &reason_1()[..2]);
}

#[test]
fn a_closing_step_that_isnt_the_last_is_wrong_itself() {
    let mut steps = reason_1();
    steps.push(steps[2].clone());
    sheet_1().is("step 2: it closes and isn't the last", &steps);
    steps.rotate_right(1);
    sheet_1().is("step 0: it closes and isn't the last", &steps);
}

#[test]
fn a_tie_joins_two_points_of_different_groups() {
    let example = sheet_1();
    let mut steps = reason_1();
    steps.insert(1, steps[0].clone());
    example.is("step 1: 0 and 1 are of one group already", &steps);
    steps[1] = Step::by_walks(0, 0, 0, Vec::new(), Vec::new());
    example.is("step 1: 0 and 0 are of one group already", &steps);
    let mut steps = reason_1();
    steps.insert(2, steps[1].clone());
    example.is("step 2: 2 and 3 are of one group already", &steps);
    // Ties go by the groups, and not only by the very points.
    let three = Example::new(
        &[UNKNOWN; 3],
        &[(0, 0, 0, 1, 1), (0, 0, 1, 2, 1), (0, 0, 0, 2, 2)],
    );
    let tie = |a, b, c, entry: u8| Step::by_walks(a, b, c, vec![e(entry)], vec![e(entry).back()]);
    let steps = [tie(0, 1, 1, 0), tie(1, 2, 1, 1), tie(0, 2, 2, 2)];
    three.is("step 2: 0 and 2 are of one group already", &steps);
}

#[test]
fn points_applications_and_entries_are_named_where_they_are_asked() {
    let example = sheet_1();
    let tie = |a, b| Step::by_walks(a, b, 0, vec![e(0)], vec![e(1)]);
    // The zero level is point 4, and there is no point 5.
    let said = "step 0: its first walk doesn't chain: bound 0 goes from 0, not 4";
    example.is(said, &[tie(4, 1)]);
    example.is("step 0: 5 is no point", &[tie(5, 1)]);
    example.is("step 0: 5 is no point", &[tie(0, 5)]);
    example.is("step 0: 5 is no point", &[Step::walk(5, vec![e(0)])]);
    let said = "step 0: 1 is no application";
    example.is(said, &[Step::by_functions(2, 1)]);
    let said = "step 0: 4 is no application";
    example.is(said, &[Step::by_functions(4, 2)]);
    example.is("step 0: there is no entry 3", &[Step::unequal(3)]);
    let said = "step 0: entry 1 isn't one with ≠";
    example.is(said, &[Step::unequal(1)]);
    let mut steps = reason_1();
    steps[0].first[0] = e(3);
    let said = "step 0: its first walk, bound 0: there is no entry 3";
    example.is(said, &steps);
    steps[0].first[0] = t(0);
    let said = "step 0: its first walk, bound 0: 0 is no number or shift term";
    example.is(said, &steps);
    steps[0].first[0] = t(4);
    let said = "step 0: its first walk, bound 0: 4 is no number or shift term";
    example.is(said, &steps);
    for number in [0, 1, 2, 9] {
        steps[0].first[0] = s(number);
        let said = format!("step 0: its first walk, bound 0: step {number} is no earlier tie");
        example.is(&said, &steps);
    }
}

#[test]
fn kinds_beyond_the_last_are_wrong() {
    let mut steps = reason_1();
    steps[1].kind = 4;
    sheet_1().is("step 1: there is no step of kind 4", &steps);
    let mut steps = reason_1();
    steps[0].second[0].kind = 6;
    let said = "step 0: its second walk, bound 0: there is no bound of kind 6";
    sheet_1().is(said, &steps);
}

#[test]
fn fields_that_a_kind_doesnt_use_are_zero() {
    let example = sheet_1();
    let changed = |own: usize, change: fn(&mut Step)| {
        let mut steps = reason_1();
        change(&mut steps[own]);
        example.said(&steps)
    };
    assert_eq!(changed(1, |step| step.c = 1), "step 1: its c is 1, not 0");
    let said = "step 1: it has no first walk, and one of 1 bounds there";
    assert_eq!(changed(1, |step| step.first = vec![e(0)]), said);
    let said = "step 1: it has no second walk, and one of 1 bounds there";
    assert_eq!(changed(1, |step| step.second = vec![e(0)]), said);
    let said = "step 2: it has no b, and 1 there";
    assert_eq!(changed(2, |step| step.b = 1), said);
    let said = "step 2: it has no c, and -1 there";
    assert_eq!(changed(2, |step| step.c = -1), said);
    let said = "step 2: it has no first walk, and one of 1 bounds there";
    assert_eq!(changed(2, |step| step.first = vec![e(0)]), said);
    // x < x, closed by a walk.
    let under = Example::new(&[UNKNOWN], &[(3, 0, 0, 0, 0)]);
    let step = Step::walk(0, vec![e(0)]);
    under.is("yes", std::slice::from_ref(&step));
    let (b, c, second) = (step.clone(), step.clone(), step);
    under.is("step 0: it has no b, and 1 there", &[Step { b: 1, ..b }]);
    under.is("step 0: it has no c, and 7 there", &[Step { c: 7, ..c }]);
    let second = Step {
        second: vec![e(0)],
        ..second
    };
    let said = "step 0: it has no second walk, and one of 1 bounds there";
    under.is(said, &[second]);
}

#[test]
fn a_walk_chains_and_comes_to_its_end() {
    // x ≤ y - 1, y ≤ z - 1, z ≤ x + 1: sheet 4.
    let example = Example::new(
        &[UNKNOWN; 3],
        &[(2, 0, 0, 1, -1), (2, 0, 1, 2, -1), (2, 0, 2, 0, 1)],
    );
    example.is("yes", &[Step::walk(0, vec![e(0), e(1), e(2)])]);
    example.is("yes", &[Step::walk(2, vec![e(2), e(0), e(1)])]);
    let said = "step 0: its walk doesn't chain: bound 1 goes from 2, not 1";
    example.is(said, &[Step::walk(0, vec![e(0), e(2), e(1)])]);
    let said = "step 0: its walk doesn't chain: bound 0 goes from 0, not 1";
    example.is(said, &[Step::walk(1, vec![e(0), e(1), e(2)])]);
    let said = "step 0: its walk ends at 2, not 0";
    example.is(said, &[Step::walk(0, vec![e(0), e(1)])]);
    let said = "step 0: its walk comes to 0 without a strict entry";
    example.is(said, &[Step::walk(0, Vec::new())]);
}

#[test]
fn only_equal_entries_numbers_shifts_and_ties_are_walked_backwards_and_unequal_ones_never() {
    for (kind, name) in [(2, "≤"), (3, "<")] {
        let example = Example::new(&[UNKNOWN; 2], &[(kind, 0, 0, 1, -1), (0, 0, 0, 1, 0)]);
        let steps = [Step::walk(0, vec![e(0), e(1).back()])];
        example.is("yes", &steps);
        let said = "step 0: its walk, bound 0: entry 0 has no =, and is walked backwards";
        let steps = [Step::walk(1, vec![e(0).back(), e(1)])];
        assert_eq!(example.said(&steps), said, "{name}");
    }
    let example = Example::new(&[UNKNOWN; 2], &[(1, 0, 0, 1, -1), (0, 0, 0, 1, 0)]);
    for bound in [e(0), e(0).back()] {
        let from = bound.kind;
        let said = "step 0: its walk, bound 0: entry 0 has ≠, which no walk goes over";
        example.is(said, &[Step::walk(from, vec![bound, e(1).back()])]);
    }
}

#[test]
fn numbers_lead_to_the_zero_level_and_shifts_to_their_argument() {
    // p = 5, q = 5, x, x + 3; p ≠ q, x = (x + 3) - 2.
    let terms = [(1, 0, 0, 0, 5), (1, 0, 0, 0, 5), UNKNOWN, (2, 0, 2, 0, 3)];
    let numbers = Example::new(&terms, &[(1, 0, 0, 1, 0)]);
    let walk = |from: u8, to: u8| vec![t(from), t(to).back()];
    let tie = Step::by_walks(0, 1, 0, walk(0, 1), walk(1, 0));
    numbers.is("yes", &[tie, Step::unequal(0)]);
    // By the zero level, which is point 4.
    let zero = |own: u8| Step::by_walks(own, 4, 5, vec![t(own)], vec![t(own).back()]);
    numbers.is("yes", &[zero(0), zero(1), Step::unequal(0)]);
    let shifts = Example::new(&terms, &[(0, 0, 2, 3, -2)]);
    shifts.is("yes", &[Step::walk(3, vec![e(0).back(), t(3).back()])]);
    let said = "step 0: its walk comes to 1, which isn't below 0";
    shifts.is(said, &[Step::walk(3, vec![t(3), e(0)])]);
}

#[test]
fn a_ties_walks_come_to_its_c_and_have_no_strict_bound() {
    let entries = [
        (2, 0, 0, 1, 4),
        (2, 0, 1, 0, -4),
        (3, 0, 0, 1, 4),
        (3, 0, 1, 0, -4),
        (2, 0, 1, 0, -3),
        (1, 0, 0, 1, 4),
    ];
    let mut example = Example::new(&[UNKNOWN; 2], &entries);
    let tie = |c, there, back| Step::by_walks(0, 1, c, vec![e(there)], vec![e(back)]);
    let said = "step 0: its first walk comes to 4, not 3";
    example.is(said, &[tie(3, 0, 1), Step::unequal(5)]);
    let said = "step 0: its second walk comes to -3, not -4";
    example.is(said, &[tie(4, 0, 4), Step::unequal(5)]);
    let said = "step 0: its first walk has a strict bound";
    example.is(said, &[tie(4, 2, 1), Step::unequal(5)]);
    let said = "step 0: its second walk has a strict bound";
    example.is(said, &[tie(4, 0, 3), Step::unequal(5)]);
    let said = "step 0: entry 5 isn't on the list";
    example.list = vec![0, 1];
    example.is(said, &[Step::unequal(5)]);
    example.list = vec![0, 1, 5];
    example.is("yes", &[tie(4, 0, 1), Step::unequal(5)]);
}

#[test]
fn a_closing_walk_is_below_zero_or_at_zero_with_a_strict_entry() {
    for (kind, c, said) in [
        (2, -1, "yes"),
        (2, 0, "step 0: its walk comes to 0 without a strict entry"),
        (2, 1, "step 0: its walk comes to 1, which isn't below 0"),
        (3, -1, "yes"),
        (3, 0, "yes"),
        (3, 1, "step 0: its walk comes to 1, which isn't below 0"),
        (0, -1, "yes"),
        (0, 0, "step 0: its walk comes to 0 without a strict entry"),
        (0, 1, "step 0: its walk comes to 1, which isn't below 0"),
    ] {
        let example = Example::new(&[UNKNOWN], &[(kind, 0, 0, 0, c)]);
        let steps = [Step::walk(0, vec![e(0)])];
        assert_eq!(example.said(&steps), said, "kind {kind}, c {c}");
    }
    // Backwards = comes to -c.
    let example = Example::new(&[UNKNOWN], &[(0, 0, 0, 0, 1)]);
    example.is("yes", &[Step::walk(0, vec![e(0).back()])]);
}

#[test]
fn applications_are_of_one_kind_and_symbol_with_arguments_tied_at_0() {
    // x, y, f(x), f(y), g(x), f(x, x), f(x, y), f(y, x), f(z, x) with z; x = y, y = z + 1
    let terms = [
        UNKNOWN,
        UNKNOWN,
        (3, 7, 0, 0, 0),
        (3, 7, 1, 0, 0),
        (3, 8, 0, 0, 0),
        (4, 7, 0, 0, 0),
        (4, 7, 0, 1, 0),
        (4, 7, 1, 0, 0),
        UNKNOWN,
        (4, 7, 8, 0, 0),
        (4, 7, 0, 8, 0),
    ];
    let entries = [(0, 0, 0, 1, 0), (0, 0, 1, 8, 1)];
    let example = Example::new(&terms, &entries);
    let tie = |a, b, c, entry: u8| Step::by_walks(a, b, c, vec![e(entry)], vec![e(entry).back()]);
    let after = |ties: &[Step], a, b| {
        let steps = [ties, &[Step::by_functions(a, b)]].concat();
        example.said(&steps)
    };
    let none: [Step; 0] = [];
    let xy = [tie(0, 1, 0, 0)];
    let all = [tie(0, 1, 0, 0), tie(1, 8, 1, 1)];
    assert_eq!(after(&xy, 2, 3), "step 2: no step closes");
    assert_eq!(
        after(&none, 2, 3),
        "step 0: the first arguments t0 and t1 aren't tied"
    );
    assert_eq!(
        after(&xy, 2, 4),
        "step 1: t2 and t4 aren't of one kind and symbol"
    );
    assert_eq!(
        after(&xy, 2, 5),
        "step 1: t2 and t5 aren't of one kind and symbol"
    );
    assert_eq!(after(&xy, 6, 7), "step 2: no step closes");
    assert_eq!(
        after(&none, 6, 7),
        "step 0: the first arguments t0 and t1 aren't tied"
    );
    assert_eq!(
        after(&none, 6, 5),
        "step 0: the second arguments t1 and t0 aren't tied"
    );
    assert_eq!(after(&xy, 6, 5), "step 2: no step closes");
    assert_eq!(
        after(&all, 9, 5),
        "step 2: the first arguments t8 and t0 are tied at -1, not 0"
    );
    assert_eq!(
        after(&all, 5, 10),
        "step 2: the second arguments t0 and t8 are tied at 1, not 0"
    );
    assert_eq!(
        after(&all, 5, 5),
        "step 2: 5 and 5 are of one group already"
    );
}

#[test]
fn a_closing_unequal_entry_is_on_terms_tied_at_exactly_its_c() {
    let tied = |c| Example::new(&[UNKNOWN; 2], &[(0, 0, 0, 1, 7), (1, 0, 0, 1, c)]);
    let steps = [
        Step::by_walks(1, 0, -7, vec![e(0).back()], vec![e(0)]),
        Step::unequal(1),
    ];
    tied(7).is("yes", &steps);
    tied(-7).is("step 1: t0 and t1 of entry 1 are tied at 7, not -7", &steps);
    tied(7).is("step 0: t0 and t1 of entry 1 aren't tied", &steps[1..]);
    // A term is tied to itself.
    let itself = |c| Example::new(&[UNKNOWN], &[(1, 0, 0, 0, c)]);
    itself(0).is("yes", &[Step::unequal(0)]);
    let said = "step 0: t0 and t0 of entry 0 are tied at 0, not 1";
    itself(1).is(said, &[Step::unequal(0)]);
}

#[test]
fn the_entries_behind_the_last_step_are_exactly_the_list() {
    let mut example = sheet_1();
    example.list = vec![0, 2];
    let said = "step 0: its second walk, bound 0: entry 1 isn't on the list";
    example.is(said, &reason_1());
    example.list = vec![0, 1];
    example.is("step 2: entry 2 isn't on the list", &reason_1());
    // x < x twice: one closes, and both are listed.
    let mut twice = Example::new(&[UNKNOWN], &[(3, 0, 0, 0, 0), (3, 0, 0, 0, 0)]);
    let said = "step 0: entry 1 of the list isn't behind it";
    twice.is(said, &[Step::walk(0, vec![e(0)])]);
    twice.is("yes", &[Step::walk(0, vec![e(0), e(1)])]);
    twice.list = vec![1];
    twice.is("yes", &[Step::walk(0, vec![e(1)])]);
    twice.list = Vec::new();
    let said = "step 0: its walk, bound 0: entry 1 isn't on the list";
    twice.is(said, &[Step::walk(0, vec![e(1)])]);
}

/// x, y, z, f(x), f(z); x = y, y = z, x = z, f(x) ≠ f(z).
fn two_ways() -> Example {
    Example::new(
        &[UNKNOWN, UNKNOWN, UNKNOWN, (3, 7, 0, 0, 0), (3, 7, 2, 0, 0)],
        &[
            (0, 0, 0, 1, 0),
            (0, 0, 1, 2, 0),
            (0, 0, 0, 2, 0),
            (1, 0, 3, 4, 0),
        ],
    )
}

#[test]
fn a_step_rests_on_paths_of_ties_and_on_no_others() {
    let mut example = two_ways();
    let tie = |a, b, entry: u8| Step::by_walks(a, b, 0, vec![e(entry)], vec![e(entry).back()]);
    let end = [Step::by_functions(3, 4), Step::unequal(3)];
    let by_y = [&[tie(0, 1, 0), tie(1, 2, 1)], &end[..]].concat();
    example.list = vec![0, 1, 3];
    example.is("yes", &by_y);
    // The tie of y is needless, and what is behind it isn't behind the end.
    let beside = [&[tie(0, 1, 0), tie(0, 2, 2)], &end[..]].concat();
    example.list = vec![2, 3];
    let said = "step 0: its first walk, bound 0: entry 0 isn't on the list";
    example.is(said, &beside);
    example.list = vec![0, 2, 3];
    example.is("step 3: entry 0 of the list isn't behind it", &beside);
    // Over a tie a walk rests on that tie: here the path is one tie, which rests on two.
    let over = [
        tie(0, 1, 0),
        Step::by_walks(0, 2, 0, vec![s(0), e(1)], vec![e(1).back(), s(0).back()]),
        end[0].clone(),
        end[1].clone(),
    ];
    example.list = vec![0, 1, 3];
    example.is("yes", &over);
    let of = |steps: &[Step]| needless(&example.sheet, &example.list, steps);
    assert_eq!(of(&by_y), Ok(vec![]));
    assert_eq!(of(&over), Ok(vec![]));
}

#[test]
fn steps_that_the_last_one_doesnt_rest_on_are_needless_and_not_wrong() {
    // Sheet 1 with a number term of 5, which is point 4; the zero level is point 5.
    let terms = [
        UNKNOWN,
        UNKNOWN,
        (3, 7, 0, 0, 0),
        (3, 7, 1, 0, 0),
        (1, 0, 0, 0, 5),
    ];
    let entries = [(2, 0, 0, 1, 0), (2, 0, 1, 0, 0), (1, 0, 2, 3, 0)];
    let example = Example::new(&terms, &entries);
    let mut steps = reason_1();
    for at in 0..3 {
        let number = Step::by_walks(4, 5, 5, vec![t(4)], vec![t(4).back()]);
        steps.insert(at, number);
        example.is("yes", &steps);
        let found = needless(&example.sheet, &example.list, &steps);
        assert_eq!(found, Ok(vec![at]));
        steps.remove(at);
    }
    let wrong = needless(&example.sheet, &example.list, &steps[..2]);
    assert_eq!(wrong.map_err(|wrong| wrong.step), Err(2));
}

/// 128 unknowns; 0: x = y, 1: x = y + 2^14, 2: z = x, 3: w = z, 4: z = z + 1.
///
/// By going round, ties of x and y at 2^20, of z and x at 2^26 and of w and z at 2^31 come about.
fn far() -> (Example, Vec<Step>) {
    let entries = [
        (0, 0, 0, 1, 0),
        (0, 0, 0, 1, 1 << 14),
        (0, 0, 2, 0, 0),
        (0, 0, 3, 2, 0),
        (0, 0, 2, 2, 1),
    ];
    let example = Example::new(&[UNKNOWN; 128], &entries);
    let round = |times: usize, there: Bound, back: Bound| [there, back].repeat(times);
    let mut first = round(63, e(1), e(0).back());
    first.push(e(1));
    let mut second = round(64, s(0), e(0).back());
    second.insert(0, e(2));
    let mut third = round(32, s(1), e(2).back());
    third.insert(0, e(3));
    let there_and_back = |a, b, c, first: Vec<Bound>| {
        let second = first.iter().rev().map(|bound| bound.back()).collect();
        Step::by_walks(a, b, c, first, second)
    };
    let steps = vec![
        there_and_back(0, 1, 1 << 20, first),
        there_and_back(2, 0, 1 << 26, second),
        there_and_back(3, 2, 1 << 31, third),
    ];
    (example, steps)
}

#[test]
fn a_ties_c_may_be_2_to_the_31_either_way_and_no_further() {
    let (example, mut steps) = far();
    example.is("step 3: no step closes", &steps);
    steps[2].c += 1;
    steps[2].first.push(e(4));
    steps[2].second.insert(0, e(4).back());
    example.is("step 2: its c is 2147483649, beyond 2^31", &steps);
    // The other way round a and b change places.
    let (example, steps) = far();
    let turned = |step: &Step| {
        let Step { a, b, c, .. } = *step;
        Step::by_walks(b, a, -c, step.second.clone(), step.first.clone())
    };
    let mut back: Vec<Step> = steps.clone();
    back[2] = turned(&steps[2]);
    assert_eq!(back[2].c, -1 << 31);
    example.is("step 3: no step closes", &back);
    back[2].c -= 1;
    example.is("step 2: its c is -2147483649, beyond 2^31", &back);
    for c in [i64::MIN, i64::MAX, (1 << 32) + (1 << 31)] {
        let mut steps = steps.clone();
        steps[2].c = c;
        let said = format!("step 2: its c is {c}, beyond 2^31");
        example.is(&said, &steps);
    }
}

#[test]
fn totals_and_gaps_go_beyond_32_bits() {
    // Over the tie at 2^31 again and again, which is below zero only in more than 32 bits.
    let (mut example, mut steps) = far();
    example.list = vec![0, 1, 2, 3];
    let round = [e(3).back(), s(2)].repeat(3);
    steps.push(Step::walk(2, round));
    let said = "step 3: its walk comes to 6442450944, which isn't below 0";
    example.is(said, &steps);
    steps[3] = Step::walk(2, [s(2).back(), e(3)].repeat(3));
    example.is("yes", &steps);
    // w is above x by 2^31 + 2^26: a ≠ entry at what is left of that in 32 or 16 bits is no end.
    for c in [0, 1 << 10] {
        let mut entries = vec![(0, 0, 0, 1, 0), (0, 0, 0, 1, 1 << 14)];
        entries.extend([(0, 0, 2, 0, 0), (0, 0, 3, 2, 0), (1, 0, 3, 0, c)]);
        example.sheet = sheet(&[UNKNOWN; 128], &entries);
        example.list = vec![0, 1, 2, 3, 4];
        steps[3] = Step::unequal(4);
        let said = format!("step 3: t3 and t0 of entry 4 are tied at 2214592512, not {c}");
        example.is(&said, &steps);
    }
}

#[test]
fn a_walk_has_at_most_t_plus_1_bounds() {
    let (example, mut steps) = far();
    assert_eq!(steps[1].first.len(), 129);
    // One more on the spot, there or back.
    let to_and_fro = [e(2).back(), e(2)];
    steps[1].first.splice(1..1, to_and_fro);
    example.is("step 1: its first walk has 131 bounds, over 129", &steps);
    let (example, mut steps) = far();
    steps[1].second.push(e(4));
    example.is("step 1: its second walk has 130 bounds, over 129", &steps);
    // The limit is the sheet's own T.
    let small = Example::new(&[UNKNOWN], &[(3, 0, 0, 0, 0)]);
    small.is("yes", &[Step::walk(0, vec![e(0); 2])]);
    let said = "step 0: its walk has 3 bounds, over 2";
    small.is(said, &[Step::walk(0, vec![e(0); 3])]);
}

#[test]
fn there_may_be_as_many_ties_as_terms() {
    // 128 numbers, each tied to the zero level, and the first ≠ the second.
    let example = Example::new(&[(1, 0, 0, 0, 9); 128], &[(1, 0, 0, 127, 0)]);
    let tie = |own: u8| Step::by_walks(own, 128, 9, vec![t(own)], vec![t(own).back()]);
    let mut steps: Vec<Step> = (0..128).map(tie).collect();
    steps.push(Step::unequal(0));
    example.is("yes", &steps);
    steps.insert(128, tie(0));
    example.is("step 128: 0 and 128 are of one group already", &steps);
    // The longest record is as long as the room.
    let longest = Step::by_walks(0, 0, 0, vec![e(0); 129], vec![e(0); 129]);
    let list = (0..128).collect();
    let steps = vec![longest; 129];
    assert_eq!(Reason { list, steps }.bytes().len(), ROOM);
    assert_eq!(ROOM, 68_379);
}

/// The record of sheet 1's reason.
fn record_1() -> Vec<u8> {
    let list = vec![0, 1, 2];
    let steps = reason_1();
    Reason { list, steps }.bytes()
}

#[test]
fn the_record_of_sheet_1_byte_by_byte() {
    let record = [
        &[0, 0, 0, 56, 1, 2, 0, 3, 0, 3][..],
        &[0, 1, 2],
        &[0, 0, 1, 0, 0, 0, 0, 0, 0, 0, 0, 1, 1, 0, 0, 0, 1],
        &[1, 2, 3, 0, 0, 0, 0, 0, 0, 0, 0, 0, 0],
        &[3, 2, 0, 0, 0, 0, 0, 0, 0, 0, 0, 0, 0],
    ];
    assert_eq!(record_1(), record.concat());
    let reason = Reason::from(&record.concat()).expect("a record");
    assert_eq!((reason.list, reason.steps), (vec![0, 1, 2], reason_1()));
}

#[test]
fn c_has_eight_bytes_and_a_sign() {
    for c in [0, 1, -1, 1 << 31, -1 << 31, i64::MAX, i64::MIN] {
        let mut steps = reason_1();
        steps[0].c = c;
        let list = vec![5];
        let reason = Reason { list, steps };
        let record = reason.bytes();
        assert_eq!(record[14..22], c.to_be_bytes());
        assert_eq!(Reason::from(&record), Ok(reason));
    }
}

#[test]
fn bytes_that_are_no_record_are_told() {
    let whole = record_1();
    let told = |record: &[u8]| Reason::from(record).expect_err("no record");
    for length in 0..whole.len() {
        let mut cut = whole[..length].to_vec();
        told(&cut);
        // A cut record that states its own length is one of too few bytes still.
        if length >= 4 {
            cut[..4].copy_from_slice(&(length as u32).to_be_bytes());
            let ends = format!("it ends at {length}, within ");
            assert!(told(&cut).starts_with(&ends), "{}", told(&cut));
        }
    }
    let longer = [&whole[..], &[0]].concat();
    assert_eq!(told(&longer), "57 bytes, and 56 stated");
    let mut longer = longer;
    longer[3] = 57;
    assert_eq!(told(&longer), "1 bytes behind the last step");
    let changed = |at: usize, byte: u8| {
        let mut record = whole.clone();
        record[at] = byte;
        told(&record)
    };
    assert_eq!(changed(0, 1), "56 bytes, and 16777272 stated");
    assert_eq!(changed(4, 0), "byte 4 is 0, not 1");
    assert_eq!(changed(4, 2), "byte 4 is 2, not 1");
    let ties = "byte 5 is 3, and there are 2 tie steps";
    assert_eq!(changed(5, 3), ties);
    assert_eq!(changed(6, 1), "it ends at 56, within the clash list");
    assert_eq!(changed(9, 4), "it ends at 56, within step 3");
    assert_eq!(changed(9, 2), "13 bytes behind the last step");
    assert_eq!(changed(11, 0), "the clash list has 0 behind 0");
    assert_eq!(changed(10, 3), "the clash list has 1 behind 3");
    let beyond = "the clash list has entry 128, not below 128";
    assert_eq!(changed(12, 128), beyond);
    assert!(told(&[0, 0, 0, 10, 1, 0, 0, 0, 0, 0]).starts_with("k is 0"));
    // What is wrong with a step is another question.
    let mut other = whole;
    other[43] = 200;
    assert!(Reason::from(&other).is_ok());
}

/// What a writer answers with a room of so many bytes, and what is left of it.
fn answer(sheet: &[u8], room: usize) -> (u8, u32, Vec<u8>) {
    let mut room = vec![0xAA; room];
    let (number, place) = Writer::new().write(sheet, &mut room);
    (number, place, room)
}

fn read(name: &str) -> Vec<u8> {
    let path = format!("{}/../sheets/{name}.sheet", env!("CARGO_MANIFEST_DIR"));
    fs::read(path).unwrap()
}

#[test]
fn the_sheets_own_refusals_come_before_26_and_26_before_25() {
    for (name, number, place) in [
        ("r10a", 10, 0),
        ("r11a", 11, 0),
        ("r12a", 12, 0),
        ("r13c", 13, 2),
        ("r14f", 14, 127),
        ("02", 26, 0),
        ("15f", 26, 0),
    ] {
        for room in [0, 1, 1_031, 1_032, ROOM - 1, ROOM, ROOM + 1] {
            let expected = (number, place, vec![0xAA; room]);
            assert!(answer(&read(name), room) == expected, "{name}, {room}");
        }
    }
    for room in [0, 1, 56, 1_032, ROOM - 1] {
        let expected = (25, 0, vec![0xAA; room]);
        assert!(answer(&read("01"), room) == expected, "{room}");
    }
}

#[test]
fn a_reason_is_written_and_the_rest_of_the_room_stays() {
    for room in [ROOM, ROOM + 1, 100_000] {
        let (number, place, room) = answer(&read("01"), room);
        assert_eq!(number, 1);
        let (record, rest) = room.split_at(place as usize);
        assert!(rest.iter().all(|&byte| byte == 0xAA));
        let Reason { list, steps } = Reason::from(record).expect("a record");
        assert_eq!(list, [0, 1, 2]);
        assert_eq!(survey(&read("01"), &list, &steps), Ok(()));
    }
}

#[test]
fn every_clashing_sheet_gets_a_reason_without_needless_steps() {
    let path = format!("{}/../sheets/expected", env!("CARGO_MANIFEST_DIR"));
    let mut written = 0;
    for row in fs::read_to_string(path).unwrap().lines() {
        let fields: Vec<&str> = row.split('\t').collect();
        let sheet = read(fields[0]);
        let (number, place, room) = answer(&sheet, ROOM);
        if let Some(listed) = fields[1].strip_prefix("clashes ") {
            assert_eq!(number, 1, "sheet {}", fields[0]);
            let Reason { list, steps } = Reason::from(&room[..place as usize]).expect("a record");
            let numbers: Vec<String> = list.iter().map(u8::to_string).collect();
            assert_eq!(numbers.join(" "), listed);
            assert_eq!(needless(&sheet, &list, &steps), Ok(vec![]), "{row}");
            written += 1;
        } else {
            assert_ne!(number, 1, "sheet {}", fields[0]);
        }
    }
    assert!(written > 10, "the sheets are there");
}

#[test]
fn every_lapse_has_its_name() {
    for (lapse, name) in Lapse::ALL {
        assert_eq!(Lapse::from_name(name), Some(lapse));
    }
    assert_eq!(Lapse::from_name("honest"), None);
}
