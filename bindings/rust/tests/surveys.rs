//! Checks of reasons from anybody, through the safe call.
use baruvkesh::{
    judge, reason, survey, Answer, EntryNumber, Reasoned, Refusal, Surveyed, TermNumber,
    MAX_ENTRIES, MAX_TERMS, REASON_ROOM, ROOM_NEEDED, SHEET_ROOM,
};
use std::{fs, thread};

// x ≤ y, y ≤ x, f(x) ≠ f(y)
const SHEET_1: &[u8] = include_bytes!("../../../sheets/01.sheet");
// x ≤ y, f(x) ≠ f(y)
const SHEET_2: &[u8] = include_bytes!("../../../sheets/02.sheet");
// x ≤ y, y ≤ z, z < x, x ≠ x
const SHEET_6: &[u8] = include_bytes!("../../../sheets/06.sheet");
const WRONG_TERM: &[u8] = include_bytes!("../../../sheets/r13c.sheet");

fn entries<const COUNT: usize>(numbers: [u8; COUNT]) -> [EntryNumber; COUNT] {
    numbers.map(EntryNumber)
}

// the list and the steps of the reason that the panel writes, if there is one
fn written(sheet: &[u8]) -> Option<(Vec<EntryNumber>, Vec<u8>)> {
    let mut room = vec![0; REASON_ROOM];
    match reason(sheet, &mut room) {
        Reasoned::Written(reason) => {
            Some((reason.entries().collect(), reason.step_bytes().to_vec()))
        }
        _ => None,
    }
}

// the bytes of sheet 1's steps: a tie by two walks of a bound each, a tie of functions, and a closing ≠ entry
const ENDS: [usize; 3] = [17, 30, 43];

fn steps_of_1() -> Vec<u8> {
    let (list, steps) = written(SHEET_1).unwrap();
    assert_eq!((list, steps.len()), (entries([0, 1, 2]).to_vec(), ENDS[2]));
    steps
}

#[test]
fn every_reason_of_the_panel_gets_a_yes() {
    let sheets = concat!(env!("CARGO_MANIFEST_DIR"), "/../../sheets");
    for row in fs::read_to_string(format!("{sheets}/expected"))
        .unwrap()
        .lines()
    {
        let mut fields = row.split('\t');
        let (name, line) = (fields.next().unwrap(), fields.next().unwrap());
        let mut sheet = fs::read(format!("{sheets}/{name}.sheet")).unwrap();
        sheet.truncate(SHEET_ROOM + 1);
        let surveyed = written(&sheet).map(|(list, steps)| survey(&sheet, &list, &steps));
        let expected = line.starts_with("clashes").then_some(Surveyed::Yes);
        assert_eq!(surveyed, expected, "sheets/{name}.sheet");
    }
}

// not a byte of sheet 1's reason can be another
#[test]
fn any_other_byte_makes_its_step_wrong() {
    let steps = steps_of_1();
    for at in 0..steps.len() {
        let own = ENDS.iter().filter(|&&end| end <= at).count();
        for byte in (0..=u8::MAX).filter(|&byte| byte != steps[at]) {
            let mut steps = steps.clone();
            steps[at] = byte;
            let surveyed = survey(SHEET_1, &entries([0, 1, 2]), &steps);
            assert_eq!(surveyed, Surveyed::Wrong(own), "byte {at} is {byte}");
            assert_eq!((surveyed.number(), surveyed.place()), (1, own));
        }
    }
}

// a step whose bytes end before it does is wrong, and where all are whole the one after the last is: no step closes
#[test]
fn torn_steps_are_wrong_at_their_number() {
    let steps = steps_of_1();
    for length in 0..steps.len() {
        let whole = ENDS.iter().filter(|&&end| end <= length).count();
        let surveyed = survey(SHEET_1, &entries([0, 1, 2]), &steps[..length]);
        assert_eq!(surveyed, Surveyed::Wrong(whole), "{length} bytes");
    }
}

#[test]
fn a_closing_step_is_the_last() {
    let steps = steps_of_1();
    for behind in [&steps[..1], &steps[..ENDS[0]], &steps[ENDS[1]..]] {
        let steps = [&steps[..], behind].concat();
        let surveyed = survey(SHEET_1, &entries([0, 1, 2]), &steps);
        assert_eq!(surveyed, Surveyed::Wrong(2));
    }
}

#[test]
fn each_list() {
    let steps = steps_of_1();
    let surveyed = survey(SHEET_1, &entries([0, 1, 2]), &steps);
    assert_eq!(surveyed, Surveyed::Yes);
    assert_eq!((surveyed.number(), surveyed.place()), (0, 0));
    for none in [[0, 2, 1], [0, 1, 1], [0, 1, 3], [0, 1, 255]] {
        let surveyed = survey(SHEET_1, &entries(none), &steps);
        assert_eq!(surveyed, Surveyed::NoList, "{none:?}");
        assert_eq!((surveyed.number(), surveyed.place()), (27, 0));
    }
    // the first step that uses what isn't listed
    let surveyed = |list: &[EntryNumber]| survey(SHEET_1, list, &steps);
    assert_eq!(surveyed(&[]), Surveyed::Wrong(0));
    assert_eq!(surveyed(&entries([0, 2])), Surveyed::Wrong(0));
    assert_eq!(surveyed(&entries([0, 1])), Surveyed::Wrong(2));
    // and the closing step where an entry of the list isn't behind it
    let (list, steps) = written(SHEET_6).unwrap();
    assert_eq!(list, entries([0, 1, 2]));
    let surveyed = survey(SHEET_6, &entries([0, 1, 2, 3]), &steps);
    assert_eq!(surveyed, Surveyed::Wrong(0));
}

#[test]
fn a_sheet_that_holds_has_no_reason() {
    assert_eq!(survey(SHEET_2, &[], &[]), Surveyed::Wrong(0));
    let surveyed = survey(SHEET_2, &entries([0, 1]), &steps_of_1());
    assert_eq!(surveyed, Surveyed::Wrong(0));
}

// before the list is looked at
#[test]
fn refused_sheets() {
    let wrong_term = Surveyed::Refused(Refusal::WrongTerm(TermNumber(2)));
    for list in [&[][..], &entries([0]), &entries([1, 0, 255])] {
        let surveyed = survey(WRONG_TERM, list, &steps_of_1());
        assert_eq!(surveyed, wrong_term);
        assert_eq!((surveyed.number(), surveyed.place()), (13, 2));
    }
    let surveyed = survey(&[], &[], &[]);
    assert_eq!(surveyed, Surveyed::Refused(Refusal::Length));
    assert_eq!((surveyed.number(), surveyed.place()), (10, 0));
}

// Unknowns of which the first two are equal, each is equal to the next but one, and the last two are unequal. Two neighbours are tied by
// going over the tie before theirs, so that what is behind the last step is gathered through 127 ties, one through the other.
fn deepest() -> (Vec<u8>, Vec<EntryNumber>, Vec<u8>) {
    let last = MAX_TERMS as u8 - 1;
    let (mut sheet, mut steps) = (vec![0; 6 + 6 * MAX_TERMS], Vec::new());
    for own in 0..last {
        let before = own.saturating_sub(1);
        sheet.extend([0, 0, before, own + 1, 0, 0]);
        steps.extend([0, own, own + 1, 0, 0, 0, 0, 0, 0, 0, 0]);
        steps.extend(match own {
            0 => vec![1, 1, 0, own, 1, own],
            _ => vec![2, 2, 5, before, 0, own, 1, own, 4, before],
        });
    }
    sheet.extend([1, 0, last - 1, last, 0, 0]);
    steps.extend([3, last, 0, 0, 0, 0, 0, 0, 0, 0, 0, 0, 0]);
    let [high, low] = (sheet.len() as u16).to_be_bytes();
    sheet[..6].copy_from_slice(&[high, low, 1, MAX_TERMS as u8, MAX_ENTRIES as u8, 0]);
    (sheet, (0..=last).map(EntryNumber).collect(), steps)
}

#[test]
fn a_yes_means_a_clash() {
    let (sheet, list, steps) = deepest();
    assert_eq!(survey(&sheet, &list, &steps), Surveyed::Yes);
    let mut room = [0; ROOM_NEEDED];
    assert!(matches!(judge(&sheet, &mut room), Answer::Clashes(_)));
}

// as the header promises
#[test]
fn a_stack_of_512_kb_is_enough() {
    thread::Builder::new()
        .stack_size(512 * 1024)
        .spawn(|| {
            let (sheet, list, steps) = deepest();
            assert_eq!(survey(&sheet, &list, &steps), Surveyed::Yes);
        })
        .unwrap()
        .join()
        .unwrap();
}
