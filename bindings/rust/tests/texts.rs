//! Typed texts, rooms and bytes, through the safe call.
use baruvkesh::{judge, transcribe, Answer, EntryNumber, Slip, Typed, ROOM_NEEDED, SHEET_ROOM};
use std::thread;

// x ≤ y, y ≤ x, f(x) ≠ f(y), typed and as the paper has its bytes
const TEXT_1: &[u8] = b"x0<=x1\nx1<=x0\nf7(x0)!=f7(x1)\n";
const SHEET_1: &[u8] = include_bytes!("../../../sheets/01.sheet");

fn untouched(room: &[u8]) -> bool {
    room.iter().all(|&byte| byte == 0xAA)
}

// the refusal, with a room that has to stay as it was
fn refused(text: &[u8]) -> (u8, usize) {
    let mut room = [0xAA; SHEET_ROOM + 1];
    let slip = match transcribe(text, &mut room) {
        Typed::Refused(slip) => slip,
        other => panic!("{other:?}"),
    };
    assert!(untouched(&room));
    (slip.number(), slip.place())
}

#[test]
fn sheet_1_byte_for_byte_and_judged() {
    let mut room = [0xAA; SHEET_ROOM];
    let sheet = match transcribe(TEXT_1, &mut room) {
        Typed::Sheet(sheet) => sheet,
        other => panic!("{other:?}"),
    };
    assert_eq!(sheet, SHEET_1);
    let mut answer = [0; ROOM_NEEDED];
    match judge(sheet, &mut answer) {
        Answer::Clashes(list) => assert!(list.entries().eq([0, 1, 2].map(EntryNumber))),
        other => panic!("{other:?}"),
    }
    let size = sheet.len();
    assert!(untouched(&room[size..]));
}

#[test]
fn each_refusal_leaves_the_room() {
    assert_eq!(refused(b""), (20, 0));
    assert_eq!(refused(b"x0=x1"), (20, 5));
    assert_eq!(refused(b"x05=x0\n"), (20, 2));
    assert_eq!(refused(&b"f0(".repeat(17)), (21, 50));
    assert_eq!(refused(b"x0=x100\n"), (22, 6));
    assert_eq!(refused(&b"x0=x0\n".repeat(129)), (23, 6 * 128));
}

#[test]
fn a_room_of_1541_is_refused_first() {
    assert_eq!(SHEET_ROOM, 1542);
    for text in [TEXT_1, b""] {
        let mut room = [0xAA; SHEET_ROOM - 1];
        assert_eq!(transcribe(text, &mut room), Typed::Refused(Slip::Room));
        assert!(untouched(&room));
    }
    assert_eq!(transcribe(&[], &mut []), Typed::Refused(Slip::Room));
}

// as the header promises, at the deepest
#[test]
fn a_stack_of_100_kb_is_enough() {
    let deepest = [b"f0(".repeat(16), b"x0".to_vec(), b")".repeat(16)].concat();
    let text = [&deepest[..], b"=x0\n"].concat();
    thread::Builder::new()
        .stack_size(100 * 1024)
        .spawn(move || {
            let mut room = [0xAA; SHEET_ROOM];
            let typed = transcribe(&text, &mut room);
            assert!(matches!(typed, Typed::Sheet(sheet) if sheet.len() == 6 + 6 * 17 + 6));
        })
        .unwrap()
        .join()
        .unwrap();
}
