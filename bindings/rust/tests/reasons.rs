//! Reasons, rooms and bytes, through the safe call.
use baruvkesh::{
    judge, reason, Answer, Bound, EntryNumber, Over, Reasoned, Refusal, Step, TermNumber,
    REASON_ROOM, ROOM_NEEDED,
};
use std::thread;

const SHEET_1: &[u8] = include_bytes!("../../../sheets/01.sheet");
const SHEET_2: &[u8] = include_bytes!("../../../sheets/02.sheet");
const WRONG_TERM: &[u8] = include_bytes!("../../../sheets/r13c.sheet");
const LARGEST: &[u8] = include_bytes!("../../../sheets/14b.sheet");

fn untouched(room: &[u8]) -> bool {
    room.iter().all(|&byte| byte == 0xAA)
}

fn entry(number: u8) -> Bound {
    Bound {
        over: Over::Entry(EntryNumber(number)),
        back: false,
    }
}

// x ≤ y and y ≤ x tie x to y, so f(x) to f(y), which entry 2 doesn't allow
#[test]
fn sheet_1_step_by_step() {
    let mut room = vec![0xAA; REASON_ROOM + 1];
    let reason = match reason(SHEET_1, &mut room) {
        Reasoned::Written(reason) => reason,
        other => panic!("{other:?}"),
    };
    assert_eq!(reason.ties(), 2);
    assert!(reason.entries().eq([0, 1, 2].map(EntryNumber)));
    let steps: Vec<Step> = reason.steps().collect();
    match steps[..] {
        [Step::TieByWalks {
            a: 0,
            b: 1,
            c: 0,
            there,
            back,
        }, Step::TieByFunctions {
            a: TermNumber(2),
            b: TermNumber(3),
        }, Step::ClosingEntry(EntryNumber(2))] => {
            assert!(there.bounds().eq([entry(0)]));
            assert!(back.bounds().eq([entry(1)]));
        }
        _ => panic!("{steps:?}"),
    }
    let size = reason.record().len();
    assert!(untouched(&room[size..]));
}

#[test]
fn each_refusal_leaves_the_room() {
    assert_eq!(REASON_ROOM, 68_379);
    let mut room = vec![0xAA; REASON_ROOM];
    for (sheet, length, reply, number, place) in [
        (SHEET_2, REASON_ROOM, Reasoned::Holds, 26, 0),
        (SHEET_2, 0, Reasoned::Holds, 26, 0),
        (SHEET_1, REASON_ROOM - 1, Reasoned::Short, 25, 0),
        (SHEET_1, 0, Reasoned::Short, 25, 0),
        (
            WRONG_TERM,
            0,
            Reasoned::Refused(Refusal::WrongTerm(TermNumber(2))),
            13,
            2,
        ),
        (&[], 0, Reasoned::Refused(Refusal::Length), 10, 0),
    ] {
        let replied = reason(sheet, &mut room[..length]);
        assert_eq!(replied, reply);
        assert_eq!((replied.number(), replied.place()), (number, place));
        assert!(untouched(&room));
    }
}

// as the header promises, with a walk over all 128 terms
#[test]
fn a_stack_of_256_kb_is_enough() {
    thread::Builder::new()
        .stack_size(256 * 1024)
        .spawn(|| {
            let mut room = vec![0; REASON_ROOM];
            let mut answer = [0; ROOM_NEEDED];
            match (reason(LARGEST, &mut room), judge(LARGEST, &mut answer)) {
                (Reasoned::Written(reason), Answer::Clashes(list)) => {
                    assert!(reason.entries().eq(list.entries()))
                }
                other => panic!("{other:?}"),
            }
        })
        .unwrap()
        .join()
        .unwrap();
}
