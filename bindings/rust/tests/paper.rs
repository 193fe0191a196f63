//! The paper's sheets, rooms and bytes, through the safe call.
use baruvkesh::{
    judge, Answer, EntryNumber, Refusal, TermNumber, Values, MAX_ENTRIES, ROOM_NEEDED, SHEET_ROOM,
};
use std::{fs, thread};

// x ≤ y, y ≤ x, f(x) ≠ f(y)
const SHEET_1: &[u8] = include_bytes!("../../../sheets/01.sheet");
// x ≤ y, f(x) ≠ f(y)
const SHEET_2: &[u8] = include_bytes!("../../../sheets/02.sheet");
// x < y, y < x + 1
const SHEET_5: &[u8] = include_bytes!("../../../sheets/05.sheet");
// 128 unknowns in a circle that clashes
const SHEET_14B: &[u8] = include_bytes!("../../../sheets/14b.sheet");
// terms 2 and 3 both wrong, and an entry too
const WRONG_TERM: &[u8] = include_bytes!("../../../sheets/r13c.sheet");

fn untouched(room: &[u8]) -> bool {
    room.iter().all(|&byte| byte == 0xAA)
}

fn held(answer: Answer) -> Values {
    match answer {
        Answer::Holds(values) => values,
        other => panic!("{other:?}"),
    }
}

#[test]
fn sheet_1_clashes_byte_for_byte() {
    let mut room = [0xAA; ROOM_NEEDED + 1];
    let answer = judge(SHEET_1, &mut room);
    assert_eq!((answer.number(), answer.place()), (1, 11));
    let list = match answer {
        Answer::Clashes(list) => list,
        other => panic!("{other:?}"),
    };
    assert_eq!(
        list.record(),
        [0x00, 0x0B, 0x01, 0x01, 0x00, 0x03, 0x00, 0x00, 0x00, 0x01, 0x02]
    );
    assert!(list.entries().eq([0, 1, 2].map(EntryNumber)));
    assert!(untouched(&room[11..]));
}

#[test]
fn sheet_2_holds() {
    let mut room = [0xAA; ROOM_NEEDED];
    let answer = judge(SHEET_2, &mut room);
    assert_eq!((answer.number(), answer.place()), (0, 8 + 8 * 4));
    let values = held(answer);
    assert_eq!(values.record()[..4], [0, 40, 1, 0]);
    let n: Vec<i64> = values.n().collect();
    assert!(values.d() >= 1 && n.len() == 4 && n[0] <= n[1] && n[2] != n[3]);
    assert!(untouched(&room[40..]));
}

#[test]
fn sheet_5_holds_between_whole_numbers() {
    let mut room = [0xAA; ROOM_NEEDED];
    let values = held(judge(SHEET_5, &mut room));
    let n: Vec<i64> = values.n().collect();
    assert!(n[0] < n[1] && n[1] < n[0] + i64::from(values.d()));
}

#[test]
fn a_refused_sheet_leaves_the_room() {
    let mut room = [0xAA; ROOM_NEEDED];
    let answer = judge(WRONG_TERM, &mut room);
    assert_eq!(answer, Answer::Refused(Refusal::WrongTerm(TermNumber(2))));
    assert_eq!((answer.number(), answer.place()), (13, 2));
    assert!(untouched(&room));
}

#[test]
fn a_room_of_1031_is_refused() {
    assert_eq!(ROOM_NEEDED, 1032);
    let mut room = [0xAA; ROOM_NEEDED - 1];
    let answer = judge(SHEET_2, &mut room);
    assert_eq!(answer, Answer::Refused(Refusal::Room));
    assert_eq!((answer.number(), answer.place()), (15, 0));
    assert!(untouched(&room));
}

#[test]
fn no_sheet_and_no_room() {
    let mut room = [0xAA; ROOM_NEEDED];
    let answer = judge(&[], &mut room);
    assert_eq!(answer, Answer::Refused(Refusal::Length));
    assert_eq!((answer.number(), answer.place()), (10, 0));
    assert!(untouched(&room));
    assert_eq!(judge(SHEET_2, &mut []), Answer::Refused(Refusal::Room));
    assert_eq!(judge(&[], &mut []), Answer::Refused(Refusal::Length));
}

// as the header promises
#[test]
fn a_stack_of_100_kb_is_enough() {
    thread::Builder::new()
        .stack_size(100 * 1024)
        .spawn(|| {
            let mut room = [0xAA; ROOM_NEEDED];
            assert_eq!(judge(SHEET_14B, &mut room).place(), 8 + MAX_ENTRIES);
        })
        .unwrap()
        .join()
        .unwrap();
}

#[test]
fn every_sheet_as_expected() {
    let sheets = concat!(env!("CARGO_MANIFEST_DIR"), "/../../sheets");
    let expected = fs::read_to_string(format!("{sheets}/expected")).unwrap();
    for row in expected.lines() {
        let mut fields = row.split('\t');
        let name = fields.next().unwrap();
        let mut sheet = fs::read(format!("{sheets}/{name}.sheet")).unwrap();
        // as much as the program reads, for which the lines are
        sheet.truncate(SHEET_ROOM + 1);
        let mut room = [0xAA; ROOM_NEEDED];
        let line = match judge(&sheet, &mut room) {
            Answer::Holds(_) => "holds".to_string(),
            Answer::Clashes(list) => list.entries().fold("clashes".to_string(), |line, entry| {
                format!("{line} {}", entry.0)
            }),
            Answer::Refused(why) => format!("refused {} at {}", why.number(), why.place()),
        };
        assert_eq!(line, fields.next().unwrap(), "sheets/{name}.sheet");
    }
}
