//! Document 01's own sheets, records, refusals and shortcuts.

use crate::common::{answer, sheet, Answer, Line};
use second::meaning::broken;
use second::sheet::{refusal, LONGEST, ROOM};
use second::{Panel, Shortcut};
use std::fs;
use std::path::PathBuf;

fn sheets() -> PathBuf {
    PathBuf::from(env!("CARGO_MANIFEST_DIR")).join("../sheets")
}

/// A sheet, or as much of it as the small program reads.
fn read(name: &str) -> Vec<u8> {
    let mut bytes = fs::read(sheets().join(format!("{name}.sheet"))).unwrap();
    bytes.truncate(1_543);
    bytes
}

pub fn line(answer: &Answer) -> String {
    match answer {
        Answer::Holds(..) => String::from("holds"),
        Answer::Clashes(list) => list.iter().fold(String::from("clashes"), |line, entry| {
            format!("{line} {entry}")
        }),
        Answer::Refused(number, place) => format!("refused {number} at {place}"),
    }
}

#[test]
fn every_sheet_gets_the_line_expected_of_it_and_values_that_keep_the_meaning() {
    let expected = fs::read_to_string(sheets().join("expected")).unwrap();
    let mut panel = Panel::new();
    let mut judged = 0;
    for row in expected.lines() {
        let fields: Vec<&str> = row.split('\t').collect();
        let bytes = read(fields[0]);
        let answer = answer(&mut panel, &bytes);
        assert_eq!(
            line(&answer),
            fields[1],
            "sheet {}: {}",
            fields[0],
            fields[2]
        );
        if let Answer::Holds(d, n) = answer {
            assert_eq!(
                broken(&bytes, d, &n),
                None,
                "sheet {}: {}",
                fields[0],
                fields[2]
            );
        }
        judged += 1;
    }
    assert!(judged > 40, "the sheets are there");
}

#[test]
fn sheet_1_gets_the_record_that_the_document_writes_out() {
    let bytes = [
        0x00, 0x30, 0x01, 0x04, 0x03, 0x00, //
        0x00, 0x00, 0x00, 0x00, 0x00, 0x00, 0x00, 0x00, 0x00, 0x00, 0x00, 0x00, //
        0x03, 0x07, 0x00, 0x00, 0x00, 0x00, 0x03, 0x07, 0x01, 0x00, 0x00, 0x00, //
        0x02, 0x00, 0x00, 0x01, 0x00, 0x00, 0x02, 0x00, 0x01, 0x00, 0x00, 0x00, //
        0x01, 0x00, 0x02, 0x03, 0x00, 0x00,
    ];
    let record = [
        0x00, 0x0B, 0x01, 0x01, 0x00, 0x03, 0x00, 0x00, 0x00, 0x01, 0x02,
    ];
    let mut room = [0; 1_100];
    assert_eq!(Panel::new().judge(&bytes, &mut room), (1, 11));
    assert_eq!(room[..11], record);
    assert_eq!(room[11..], [0; 1_089]);
}

const UNKNOWN: Line = (0, 0, 0, 0, 0);

#[test]
fn each_ground_of_refusal_is_given_with_its_place_and_the_first_that_applies_wins() {
    let good = sheet(
        &[UNKNOWN, (3, 7, 0, 0, 0)],
        &[(2, 0, 0, 1, 5), (1, 0, 1, 1, 5)],
    );
    let mut cases = vec![(good.clone(), None)];
    let mut case = |changes: &[(usize, u8)], number, place| {
        let mut bytes = good.clone();
        for &(at, byte) in changes {
            bytes[at] = byte;
        }
        cases.push((bytes, Some((number, place))));
    };
    case(&[(1, 29)], 10, 0);
    case(&[(0, 1)], 10, 0);
    case(&[(2, 2)], 11, 0);
    case(&[(2, 0), (3, 0)], 11, 0);
    case(&[(3, 0)], 12, 0);
    case(&[(3, 129)], 12, 0);
    case(&[(3, 3), (4, 2)], 12, 0);
    case(&[(4, 129)], 12, 0);
    case(&[(5, 1), (6, 9)], 12, 0);
    for at in 7..12 {
        case(&[(at, 1)], 13, 0);
    }
    case(&[(12, 5)], 13, 1);
    case(&[(14, 1)], 13, 1);
    case(&[(15, 1)], 13, 1);
    case(&[(17, 1), (18, 9)], 13, 1);
    case(&[(18, 4)], 14, 0);
    case(&[(19, 1)], 14, 0);
    case(&[(26, 2)], 14, 1);
    case(&[(27, 2)], 14, 1);
    case(&[(26, 2), (20, 2)], 14, 0);
    for (bytes, refused) in cases {
        assert_eq!(refusal(&bytes, 1_032), refused, "{bytes:?}");
        assert_eq!(
            refusal(&bytes, 1_031),
            Some(refused.unwrap_or((15, 0))),
            "{bytes:?}"
        );
    }
    for length in 0..good.len() {
        assert_eq!(
            refusal(&good[..length], 1_032),
            Some((10, 0)),
            "cut to {length} bytes"
        );
    }
}

#[test]
fn sizes_up_to_128_are_read_and_129_is_sent_back() {
    assert_eq!((LONGEST, ROOM), (1_542, 1_032));
    let sizes = [0, 1, 63, 64, 65, 127, 128, 129, 255];
    for (t, l) in sizes.map(|t| sizes.map(|l| (t, l))).concat() {
        let bytes = sheet(&vec![UNKNOWN; t], &vec![(2, 0, 0, 0, 0); l]);
        let refused = (t == 0 || t > 128 || l > 128).then_some((12, 0));
        assert_eq!(refusal(&bytes, 1_032), refused, "T {t}, L {l}");
        assert_eq!(
            refusal(&bytes, 1_031),
            refused.or(Some((15, 0))),
            "T {t}, L {l}"
        );
    }
    assert_eq!(sheet(&[UNKNOWN; 128], &[(2, 0, 0, 0, 0); 128]).len(), 1_542);
}

#[test]
fn late_records_of_the_largest_sheets_are_looked_at_too() {
    let good = sheet(&[UNKNOWN; 128], &[(2, 0, 127, 127, 0); 128]);
    assert_eq!(refusal(&good, 1_032), None);
    for own in [0, 63, 64, 127] {
        let mut bytes = good.clone();
        bytes[6 + 6 * own] = 5;
        assert_eq!(refusal(&bytes, 1_032), Some((13, own as u16)));
        // A term's arguments lie below it, and an entry's below T.
        bytes[6 + 6 * own..][..4].copy_from_slice(&[3, 7, own as u8, 0]);
        assert_eq!(refusal(&bytes, 1_032), Some((13, own as u16)));
        for at in [2, 3] {
            let mut bytes = good.clone();
            bytes[6 + 6 * (128 + own) + at] = 128;
            assert_eq!(refusal(&bytes, 1_032), Some((14, own as u16)));
        }
    }
}

#[test]
fn the_largest_answers_fill_the_room() {
    // 128 unknowns, each under the next.
    let under = |own: u8| (3, 0, own, (own + 1) % 128, 0);
    let entries: Vec<Line> = (0..128).map(under).collect();
    let mut room = [0xAA; 1_032];
    let holds = sheet(&[UNKNOWN; 128], &entries[..127]);
    assert_eq!(Panel::new().judge(&holds, &mut room), (0, 1_032));
    assert_eq!(room[..4], [4, 8, 1, 0]);
    let clashes = sheet(&[UNKNOWN; 128], &entries);
    assert_eq!(Panel::new().judge(&clashes, &mut room), (1, 136));
    assert_eq!(room[..8], [0, 136, 1, 1, 0, 128, 0, 0]);
    assert!(room[8..136].iter().copied().eq(0..128));
}

#[test]
fn a_refused_sheet_leaves_the_room_alone_and_a_room_of_1031_bytes_is_too_small() {
    let mut room = [0xAA; 1_031];
    for name in ["01", "02", "r10a", "r11a", "r12a", "r13a", "r14a"] {
        let (number, _) = Panel::new().judge(&read(name), &mut room);
        assert!(number >= 10, "sheet {name}");
        assert_eq!(room, [0xAA; 1_031], "sheet {name}");
    }
}

#[test]
fn each_rule_that_values_break_is_named() {
    // x, 5, x + 2, f(x), f(5), g(x, 5), g(5, x)
    let terms = [
        UNKNOWN,
        (1, 0, 0, 0, 5),
        (2, 0, 0, 0, 2),
        (3, 7, 0, 0, 0),
        (3, 7, 1, 0, 0),
        (4, 7, 0, 1, 0),
        (4, 7, 1, 0, 0),
    ];
    let entries = [
        (0, 0, 0, 2, -2),
        (1, 0, 0, 2, 0),
        (2, 0, 1, 2, -1),
        (3, 0, 3, 4, 1),
    ];
    let bytes = sheet(&terms, &entries);
    let breaks = |d: i64, n: [i64; 7], words: &str| {
        let found = broken(&bytes, d, &n);
        match &found {
            None => assert_eq!(words, ""),
            Some(rule) => assert!(!words.is_empty() && rule.starts_with(words), "{rule}"),
        }
    };
    breaks(2, [9, 10, 13, 0, 1, 7, 8], "");
    breaks(2, [10, 10, 14, 3, 3, 7, 7], "");
    breaks(0, [9, 10, 13, 0, 1, 7, 8], "D is 0");
    breaks(65_536, [9, 10, 13, 0, 1, 7, 8], "D is 65536");
    breaks(2, [9, 10, 13, 0, 1, 7, 1 << 40], "");
    breaks(2, [9, 10, 13, 0, 1, 7, (1 << 40) + 1], "term 6: n is");
    breaks(2, [9, 11, 13, 0, 1, 7, 8], "term 1: the number 5");
    breaks(2, [9, 10, 14, 0, 1, 7, 8], "term 2: t0 + 2 has");
    breaks(2, [10, 10, 14, 3, 4, 7, 7], "terms 3 and 4");
    breaks(2, [10, 10, 14, 3, 3, 7, 8], "terms 5 and 6");
    breaks(2, [5, 10, 9, 0, 1, 7, 8], "entry 2: t1 ≤ t2 - 1 is");
    breaks(2, [9, 10, 13, 3, 1, 7, 8], "entry 3: t3 < t4 + 1 is");
    assert_eq!(
        broken(&bytes, 2, &[0; 6]),
        Some(String::from("6 values for 7 terms"))
    );
    let apart = sheet(&[UNKNOWN, UNKNOWN], &[(0, 0, 0, 1, 3), (1, 0, 0, 1, 4)]);
    assert_eq!(broken(&apart, 2, &[6, 0]), None);
    assert!(broken(&apart, 2, &[7, 0])
        .unwrap()
        .starts_with("entry 0: t0 = t1 + 3 is"));
    let same = sheet(&[UNKNOWN], &[(1, 0, 0, 0, 0)]);
    assert!(broken(&same, 1, &[1])
        .unwrap()
        .starts_with("entry 0: t0 ≠ t0 is"));
}

#[test]
fn each_shortcut_is_wrong_on_the_sheet_that_the_document_names() {
    let met_late = sheet(&[UNKNOWN], &[(2, 0, 0, 0, 0), (3, 0, 0, 0, 0)]);
    let wrong = [
        (Shortcut::Apart, read("01"), "holds"),
        (Shortcut::Once, read("13"), "holds"),
        (Shortcut::OneHalf, read("13"), "holds"),
        (Shortcut::OnlyEqual, read("01"), "holds"),
        (Shortcut::OnlyEqual, read("08"), "holds"),
        (Shortcut::OnlyEqual, read("09"), "holds"),
        (Shortcut::MinusOne, read("05"), "clashes 0 1"),
        (Shortcut::Fewest, read("06"), "clashes 3"),
        (Shortcut::MetLast, met_late, "clashes 0 1"),
        (Shortcut::AnySymbol, read("symbols"), "clashes 0"),
    ];
    for (shortcut, bytes, answered) in wrong {
        let taken = line(&answer(&mut Panel::with(shortcut), &bytes));
        assert_eq!(taken, answered, "{}", shortcut.name());
        let honest = line(&answer(&mut Panel::new(), &bytes));
        assert_ne!(taken, honest, "{}", shortcut.name());
    }
    let bytes = read("02");
    match answer(&mut Panel::with(Shortcut::Level), &bytes) {
        Answer::Holds(d, n) => assert!(broken(&bytes, d, &n).is_some(), "level: {n:?}"),
        other => panic!("level: {}", line(&other)),
    }
}

#[test]
fn shortcuts_are_found_by_their_names() {
    for shortcut in Shortcut::ALL {
        assert_eq!(Shortcut::from_name(shortcut.name()), Some(shortcut));
    }
    assert_eq!(Shortcut::from_name("honest"), None);
}
