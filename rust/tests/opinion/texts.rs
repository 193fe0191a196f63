//! Texts by hand: what each sentence of request 1 of document 02 says, and of "Request 1: text" of
//! the paper on byte forms; and the files of texts/.

use crate::common::{answer, sheet, Line};
use crate::document::line;
use second::text::{Reader, Slip, ROOM};
use second::Panel;
use std::fs;
use std::path::PathBuf;

/// The sheet that a text types, or the number and place of its refusal. The room past the sheet
/// must stay, and all of it in a refusal.
fn read(text: &[u8]) -> Result<Vec<u8>, (u8, u32)> {
    let mut room = [0xAA; ROOM + 9];
    let (number, place) = Reader::new().read(text, &mut room);
    let length = if number == 0 { place as usize } else { 0 };
    let (typed, rest) = room.split_at(length);
    assert!(rest.iter().all(|&byte| byte == 0xAA), "the rest changed");
    if number == 0 {
        Ok(typed.to_vec())
    } else {
        Err((number, place))
    }
}

fn refused(text: &str, number: u8, place: usize) {
    let refusal = Err((number, place as u32));
    assert_eq!(read(text.as_bytes()), refusal, "{text:?}");
}

fn reads(text: &str, terms: &[Line], entries: &[Line]) {
    assert_eq!(read(text.as_bytes()), Ok(sheet(terms, entries)), "{text:?}");
}

const X: Line = (0, 0, 0, 0, 0);

/// Lines of two new terms each, for so many terms, an even number: x0 to x63, so that there are
/// other unknowns, and then the numbers from 1064 on.
fn pairs(terms: usize) -> String {
    let term = |i| match i {
        0..=63 => format!("x{i}"),
        _ => format!("{}", 1000 + i),
    };
    let pair = |i| format!("{}<{}\n", term(2 * i), term(2 * i + 1));
    (0..terms / 2).map(pair).collect()
}

#[test]
fn a_line_is_a_term_a_comparison_and_a_term() {
    for (sign, kind) in [("=", 0), ("!=", 1), ("<=", 2), ("<", 3)] {
        reads(&format!("x0{sign}x1\n"), &[X, X], &[(kind, 0, 0, 1, 0)]);
    }
    for (text, place) in [
        ("x0==x1\n", 3),
        ("x0>x1\n", 2),
        ("x0=<x1\n", 3),
        ("x0!x1\n", 3),
        ("x0!<x1\n", 3),
        ("x0<!x1\n", 3),
        ("x0<>x1\n", 3),
        ("x0<==x1\n", 4),
        ("x0\n", 2),
        ("=x0\n", 0),
        ("x0=\n", 3),
        ("x0=x1=x2\n", 5),
        ("x0=x1<x2\n", 5),
    ] {
        refused(text, 20, place);
    }
}

#[test]
fn there_are_no_spaces_and_no_other_bytes() {
    for (text, place) in [
        (" x0=x1\n", 0),
        ("x0 =x1\n", 2),
        ("x0= x1\n", 3),
        ("x0=x1 \n", 5),
        ("x0=x1\r\n", 5),
        ("x0=f7(x1, x2)\n", 9),
        ("x0=x1\n\n", 6),
        ("\nx0=x1\n", 0),
        ("X0=x1\n", 0),
        ("y=x1\n", 0),
        ("x0=x1;\n", 5),
        ("x0=\u{2212}1\n", 3),
        ("\u{feff}x0=x1\n", 0),
        ("x0=x1\n#\n", 6),
        ("x0=x1\0\n", 5),
    ] {
        refused(text, 20, place);
    }
}

#[test]
fn a_text_has_a_line_and_each_line_ends_in_a_newline() {
    refused("", 20, 0);
    let text = "x0=f7(x1,-3)+4\nx2<x1\n";
    for length in (0..text.len()).filter(|&length| length != 15) {
        refused(&text[..length], 20, length);
    }
    assert!(read(&text.as_bytes()[..15]).is_ok());
    assert!(read(text.as_bytes()).is_ok());
}

#[test]
fn terms_are_unknowns_numbers_and_applications() {
    reads("x0=x99\n", &[X, X], &[(0, 0, 0, 1, 0)]);
    reads(
        "0=-7\n",
        &[(1, 0, 0, 0, 0), (1, 0, 0, 0, -7)],
        &[(0, 0, 0, 1, 0)],
    );
    reads(
        "f0(x5)=f255(x5,x6)\n",
        &[X, (3, 0, 0, 0, 0), X, (4, 255, 0, 2, 0)],
        &[(0, 0, 1, 3, 0)],
    );
    reads(
        "x0<-1\nx0<=-1\n",
        &[X, (1, 0, 0, 0, -1)],
        &[(3, 0, 0, 1, 0), (2, 0, 0, 1, 0)],
    );
    for (text, place) in [
        ("x=x0\n", 1),
        ("f=x0\n", 1),
        ("f7=x0\n", 2),
        ("f7x0=x0\n", 2),
        ("f(x0)=x0\n", 1),
        ("f7()=x0\n", 3),
        ("f7(,x0)=x0\n", 3),
        ("f7(x0,)=x0\n", 6),
        ("f7(x0,x1,x2)=x0\n", 8),
        ("f7(x0=x1)\n", 5),
        ("f7(x0\n", 5),
        ("f7(x0))=x0\n", 6),
        ("(x0)=x0\n", 0),
        ("x0,x1=x0\n", 2),
        ("x0)=x0\n", 2),
        ("x0=x1)\n", 5),
        ("x0=x1,x2\n", 5),
        ("x0x1=x0\n", 2),
        ("x0(x1)=x0\n", 2),
        ("5x0=x0\n", 1),
        ("f7(x0)(x1)=x0\n", 6),
        ("f7(x0)5=x0\n", 6),
        ("+5=x0\n", 0),
        ("--5=x0\n", 1),
        ("-x0=x0\n", 1),
        ("f-7(x0)=x0\n", 1),
        ("x-7=x0\n", 1),
    ] {
        refused(text, 20, place);
    }
}

#[test]
fn any_term_but_a_number_may_end_in_one_shift() {
    reads(
        "x0+5=x0-5\n",
        &[X, (2, 0, 0, 0, 5), (2, 0, 0, 0, -5)],
        &[(0, 0, 1, 2, 0)],
    );
    reads(
        "f7(x0+1)+2=3\n",
        &[
            X,
            (2, 0, 0, 0, 1),
            (3, 7, 1, 0, 0),
            (2, 0, 2, 0, 2),
            (1, 0, 0, 0, 3),
        ],
        &[(0, 0, 3, 4, 0)],
    );
    for (text, place) in [
        ("5+1=x0\n", 1),
        ("5-1=x0\n", 1),
        ("-5+1=x0\n", 2),
        ("f7(5-1)=x0\n", 4),
        ("x0+1+1=x0\n", 4),
        ("x0+1-1=x0\n", 4),
        ("x0-0-0=x0\n", 4),
        ("f7(x0)+1+1=x0\n", 8),
        ("x0+=x0\n", 3),
        ("x0+-1=x0\n", 3),
        ("x0--1=x0\n", 3),
        ("x0+x1=x0\n", 3),
        ("f7+1(x0)=x0\n", 2),
    ] {
        refused(text, 20, place);
    }
}

#[test]
fn there_are_no_leading_zeros_and_no_term_minus_0() {
    for (text, place) in [
        ("x05=x0\n", 2),
        ("x00=x0\n", 2),
        ("f05(x0)=x0\n", 2),
        ("f00(x0)=x0\n", 2),
        ("x0+05=x0\n", 4),
        ("x0-05=x0\n", 4),
        ("x0+00=x0\n", 4),
        ("x0-00=x0\n", 4),
        ("05=x0\n", 1),
        ("00=x0\n", 1),
        ("-05=x0\n", 1),
        ("-0=x0\n", 1),
        ("x0=-0\n", 4),
        ("x0<=-0\n", 5),
        ("f7(-0)=x0\n", 4),
        ("f7(x0,-0)=x0\n", 7),
    ] {
        refused(text, 20, place);
    }
    reads("x10=x0\n", &[X, X], &[(0, 0, 0, 1, 0)]);
    reads(
        "10=-10\n",
        &[(1, 0, 0, 0, 10), (1, 0, 0, 0, -10)],
        &[(0, 0, 0, 1, 0)],
    );
}

#[test]
fn a_shift_by_0_is_a_term_and_one_term_with_either_sign() {
    let terms = [X, (2, 0, 0, 0, 0)];
    reads("x0+0=x0-0\n", &terms, &[(0, 0, 1, 1, 0)]);
    reads("x0-0=x0+0\n", &terms, &[(0, 0, 1, 1, 0)]);
    reads("x0-0=x0\n", &terms, &[(0, 0, 1, 0, 0)]);
    reads(
        "f7(x0-0)=f7(x0+0)\n",
        &[X, (2, 0, 0, 0, 0), (3, 7, 1, 0, 0)],
        &[(0, 0, 2, 2, 0)],
    );
    reads(
        "f7(x0)-0=f7(x0)+0\n",
        &[X, (3, 7, 0, 0, 0), (2, 0, 1, 0, 0)],
        &[(0, 0, 2, 2, 0)],
    );
}

#[test]
fn terms_take_numbers_in_the_order_in_which_they_are_completed() {
    // x1, x0, f8(x1,x0), 3, f8(..)+2, f7(f8(..)+2,3)
    reads(
        "f7(f8(x1,x0)+2,3)!=x0\n",
        &[
            X,
            X,
            (4, 8, 0, 1, 0),
            (2, 0, 2, 0, 2),
            (1, 0, 0, 0, 3),
            (4, 7, 3, 4, 0),
        ],
        &[(1, 0, 5, 1, 0)],
    );
    reads(
        "f7(x9,f7(x8))=f7(x8)\n",
        &[X, X, (3, 7, 1, 0, 0), (4, 7, 0, 2, 0)],
        &[(0, 0, 3, 2, 0)],
    );
}

#[test]
fn a_term_already_met_keeps_its_number_and_others_are_other_terms() {
    reads(
        "x0=x1\nx1=x0\nx0=x0\n",
        &[X, X],
        &[(0, 0, 0, 1, 0), (0, 0, 1, 0, 0), (0, 0, 0, 0, 0)],
    );
    reads(
        "5=5\nf7(5)=f7(5)\n",
        &[(1, 0, 0, 0, 5), (3, 7, 0, 0, 0)],
        &[(0, 0, 0, 0, 0), (0, 0, 1, 1, 0)],
    );
    let crossed = [X, X, (4, 130, 0, 1, 0), (4, 130, 1, 0, 0)];
    reads("f130(x0,x1)=f130(x1,x0)\n", &crossed, &[(0, 0, 2, 3, 0)]);
    let counts = [X, (3, 7, 0, 0, 0), (4, 7, 0, 0, 0)];
    reads("f7(x0)=f7(x0,x0)\n", &counts, &[(0, 0, 1, 2, 0)]);
    let symbols = [X, (3, 1, 0, 0, 0), (3, 10, 0, 0, 0)];
    reads("f1(x0)=f10(x0)\n", &symbols, &[(0, 0, 1, 2, 0)]);
    let unknowns = [X, X, (1, 0, 0, 0, 1)];
    reads(
        "x1=x10\n1=x1\n",
        &unknowns,
        &[(0, 0, 0, 1, 0), (0, 0, 2, 0, 0)],
    );
}

#[test]
fn entries_have_no_c() {
    reads("x0<=x1-1\n", &[X, X, (2, 0, 1, 0, -1)], &[(2, 0, 0, 2, 0)]);
}

#[test]
fn the_first_digit_that_takes_a_number_out_of_range_has_22() {
    for (text, place) in [
        ("x100=x0\n", 3),
        ("x1000=x0\n", 3),
        ("x999=x0\n", 3),
        ("x0=x100\n", 6),
        ("f256(x0)=x0\n", 3),
        ("f260(x0)=x0\n", 3),
        ("f300(x0)=x0\n", 3),
        ("f999(x0)=x0\n", 3),
        ("f1000(x0)=x0\n", 4),
        ("f2550(x0)=x0\n", 4),
        ("32768=x0\n", 4),
        ("40000=x0\n", 4),
        ("327670=x0\n", 5),
        ("-32769=x0\n", 5),
        ("-327680=x0\n", 6),
        ("x0+32768=x0\n", 7),
        ("x0-32769=x0\n", 7),
        ("x0-40000=x0\n", 7),
        ("f7(x0)+32768=x0\n", 11),
        ("f7(x0,32768)=x0\n", 10),
        // Behind it anything may come, or nothing.
        ("x100", 3),
        ("x100 ", 3),
        ("f256", 3),
        ("f256x", 3),
        ("x0-32769?", 7),
    ] {
        refused(text, 22, place);
    }
    for digits in [20, 40, 5000] {
        refused(&format!("x1{}=x0\n", "0".repeat(digits)), 22, 3);
        refused(&format!("-1{}=x0\n", "0".repeat(digits)), 22, 6);
    }
    // 2^16 and 2^64 are 0 in too few bits.
    refused("65536=x0\n", 22, 4);
    refused("x18446744073709551616=x0\n", 22, 3);
}

#[test]
fn the_ends_of_the_ranges_are_in_range() {
    reads(
        "x99=f255(32767,-32768)\n",
        &[
            X,
            (1, 0, 0, 0, 32_767),
            (1, 0, 0, 0, -32_768),
            (4, 255, 1, 2, 0),
        ],
        &[(0, 0, 0, 3, 0)],
    );
    reads(
        "x0+32767=x0-32768\n",
        &[X, (2, 0, 0, 0, 32_767), (2, 0, 0, 0, -32_768)],
        &[(0, 0, 1, 2, 0)],
    );
}

fn nested(depth: usize) -> String {
    format!("{}x0{}", "f7(".repeat(depth), ")".repeat(depth))
}

#[test]
fn an_opening_bracket_that_goes_deeper_than_16_has_21() {
    assert!(read(format!("{}=x0\n", nested(16)).as_bytes()).is_ok());
    refused(&format!("{}=x0\n", nested(17)), 21, 3 * 16 + 2);
    refused(&format!("{}=x0\n", nested(99)), 21, 3 * 16 + 2);
    refused(&format!("x0={}\n", nested(17)), 21, 3 + 3 * 16 + 2);
    // Behind it anything may come, or nothing; before it nothing.
    refused(&"f7(".repeat(17), 21, 50);
    refused(&("f7(".repeat(17) + " "), 21, 50);
    refused(&("f7(".repeat(16) + "f7"), 20, 50);
    refused(&("f7(".repeat(16) + "f7 "), 20, 50);
    refused(&("f7(".repeat(16) + "f256("), 22, 51);
    // A bracket that is closed no longer counts.
    let half = nested(15);
    assert!(read(format!("f8({half},{half})={half}\n").as_bytes()).is_ok());
    let second = format!("f8(x0,{}", "f7(".repeat(16));
    refused(&second, 21, second.len() - 1);
}

#[test]
fn the_last_byte_of_a_129th_term_has_23() {
    let full = pairs(128);
    let before = full.len();
    assert!(read(full.as_bytes()).is_ok());
    assert!(read((full.clone() + "x63<x0\n").as_bytes()).is_ok());
    for (line, last) in [
        ("x64<x0\n", 2),
        ("7<x0\n", 0),
        ("-77<x0\n", 2),
        ("x0<x64\n", 5),
        ("x0+5<x0\n", 3),
        ("x0-0<x0\n", 3),
        ("f7(x0)<x0\n", 5),
        ("f7(x0,x1)<x0\n", 8),
        ("f7(x64)<x0\n", 5),
        ("f7(x0,x64)<x0\n", 8),
        ("f7(f8(x0))<x0\n", 8),
        // The unknown under a shift is completed at its own last byte.
        ("x64+5<x0\n", 2),
        ("f7(x0)+5<x0\n", 5),
        ("x64+99999<x0\n", 2),
        // No fault behind it counts, nor the end.
        ("x64", 2),
        ("x64 ", 2),
        ("x64)", 2),
        ("x64+", 2),
        ("x64?", 2),
        ("x64\n", 2),
        ("f7(x0)5", 5),
        ("f7(x0)x", 5),
        ("f7(x0)", 5),
        ("f7(x0)+32768", 5),
        ("x0+5+", 3),
        ("x0+5", 3),
        ("7", 0),
        ("7+", 0),
        ("7x", 0),
        ("0\n", 0),
    ] {
        refused(&(full.clone() + line), 23, before + last);
    }
}

#[test]
fn a_65th_term_and_a_65th_line_are_read() {
    let terms = pairs(64) + "x64<x0\n";
    assert_eq!(read(terms.as_bytes()).unwrap()[3..5], [65, 33]);
    let lines = "x0=x1\n".repeat(65);
    assert_eq!(read(lines.as_bytes()).unwrap()[3..5], [2, 65]);
}

#[test]
fn terms_past_the_64th_and_the_100_unknowns_keep_their_numbers() {
    // x0 to x99 are terms 0 to 99, and x0+1 to x27+1 are terms 100 to 127.
    let unknowns: String = (0..50)
        .map(|i| format!("x{}<x{}\n", 2 * i, 2 * i + 1))
        .collect();
    let shifts: String = (0..28).map(|i| format!("x{i}+1<x99\n")).collect();
    let typed = read((unknowns + &shifts + "x27+1=x64\n").as_bytes()).unwrap();
    assert_eq!(typed[3..5], [128, 79]);
    assert_eq!(typed[6 + 6 * 127..][..6], [2, 0, 27, 0, 0, 1]);
    assert_eq!(typed[6 + 6 * (128 + 78)..], [0, 0, 127, 64, 0, 0]);
}

#[test]
fn digits_are_one_number_as_long_as_they_go_on() {
    let full = pairs(128);
    let before = full.len();
    // x6 and x64 would be in time, and 7 of 77 isn't completed.
    refused(&(full.clone() + "x6"), 20, before + 2);
    refused(&(full.clone() + "x65\n"), 23, before + 2);
    refused(&(full.clone() + "77<x0\n"), 23, before + 1);
    refused(&(full.clone() + "x0+55<x0\n"), 23, before + 4);
    // Nothing is completed at a leading zero.
    let no_x0 = full.replace("x0<", "x99<");
    let before_too = no_x0.len();
    refused(&(no_x0.clone() + "x0<x1\n"), 23, before_too + 1);
    refused(&(no_x0.clone() + "x0"), 23, before_too + 1);
    refused(&(no_x0 + "x05<x1\n"), 20, before_too + 2);
    refused(&(full.clone() + "05<x1\n"), 20, before + 1);
    refused(&(full.clone() + "00"), 20, before + 1);
    refused(&(full.clone() + "x0+05"), 20, before + 4);
    refused(&(full.clone() + "-05"), 20, before + 1);
    refused(&(full.clone() + "-0"), 20, before + 1);
    refused(&(full + "f05(x0)"), 20, before + 2);
}

#[test]
fn at_one_byte_22_comes_before_23() {
    let full = pairs(128);
    let before = full.len();
    for (line, number, last) in [
        ("x100<x0\n", 22, 3),
        ("x100", 22, 3),
        ("x1000", 22, 3),
        ("32768<x0\n", 22, 4),
        ("-32769<x0\n", 22, 5),
        ("-32768<x0\n", 23, 5),
        ("x0+32768<x0\n", 22, 7),
        ("x0-32769<x0\n", 22, 7),
        ("x0-32768<x0\n", 23, 7),
        ("f256(x0)<x0\n", 22, 3),
        ("f7(32768)<x0\n", 22, 7),
        ("x99<x0\n", 23, 2),
    ] {
        refused(&(full.clone() + line), number, before + last);
    }
}

#[test]
fn the_first_byte_of_a_129th_line_has_23_and_one_that_begins_no_line_20() {
    let full = "x0=x1\n".repeat(128);
    let before = full.len();
    assert!(read(full.as_bytes()).is_ok());
    for behind in [
        "x0=x1\n",
        "x",
        "f",
        "-",
        "-0",
        "0",
        "05",
        "9",
        "x100=x0\n",
        "f7(x0)",
    ] {
        refused(&(full.clone() + behind), 23, before);
    }
    for behind in [
        " ", "\n", "=", "+", "(", ")", ",", "!", "<", "X", "\0", "\u{e9}",
    ] {
        refused(&(full.clone() + behind), 20, before);
    }
    // A 128th line that isn't whole.
    refused(full.trim_end(), 20, before - 1);
    refused(&(full.trim_end().to_string() + " "), 20, before - 1);
}

#[test]
fn the_earliest_fault_counts() {
    for (text, number, place) in [
        ("x100=05\n", 22, 3),
        ("05=x100\n", 20, 1),
        ("x0=x100 \n", 22, 6),
        ("x0 =x100\n", 20, 2),
        ("x0=x1\nx100=x0\n y\n", 22, 9),
    ] {
        refused(text, number, place);
    }
    let deep = "f7(".repeat(17);
    refused(&format!("x100={deep}"), 22, 3);
    refused(&format!("x10={deep}x100"), 21, 4 + 50);
    refused(&format!("{}{deep}", pairs(128)), 21, pairs(128).len() + 50);
    refused(
        &format!("{}x64={deep}", pairs(128)),
        23,
        pairs(128).len() + 2,
    );
}

#[test]
fn a_room_under_1542_bytes_is_looked_at_first() {
    for text in ["x0=x1\n", "", "x100=x0\n", " "] {
        for size in [0, 1, 6, 30, 773, 774, 1_032, 1_541] {
            let mut room = vec![0xAA; size];
            assert_eq!(Reader::new().read(text.as_bytes(), &mut room), (24, 0));
            assert_eq!(room, vec![0xAA; size], "{text:?}");
        }
    }
    let mut room = [0xAA; 1_542];
    assert_eq!(Reader::new().read(b"x0=x1\n", &mut room), (0, 24));
    assert_eq!(room[..24], sheet(&[X, X], &[(0, 0, 0, 1, 0)])[..]);
    assert_eq!(room[24..], [0xAA; 1_518]);
}

#[test]
fn the_longest_sheet_fills_a_room_of_1542_bytes() {
    let text = pairs(128) + &"x0=x1\n".repeat(64);
    let mut room = [0xAA; 1_542];
    assert_eq!(Reader::new().read(text.as_bytes(), &mut room), (0, 1_542));
    assert_eq!(room[..6], [6, 6, 1, 128, 128, 0]);
}

#[test]
fn a_sheet_that_is_typed_is_never_sent_back() {
    let text = "f7(f8(x1,x0)+2,3)!=x0\nx0<=-5\n";
    let typed = read(text.as_bytes()).unwrap();
    assert_eq!(second::sheet::refusal(&typed, 1_032), None);
}

#[test]
fn slips_are_found_by_their_names() {
    for (slip, name) in Slip::ALL {
        assert_eq!(Slip::from_name(name), Some(slip));
    }
    assert_eq!(Slip::from_name("sound"), None);
}

#[test]
fn each_slip_is_wrong_on_a_text_that_goes_by_its_sentence() {
    let full = pairs(128);
    let (no_x0, lines) = (full.replace("x0<", "x99<"), "x0=x1\n".repeat(128));
    for (slip, text) in [
        (Slip::LeadingZero, "x05=x1\n"),
        (Slip::MinusZero, "x0=-0\n"),
        (Slip::ShiftedNumber, "5+1=x0\n"),
        (Slip::SecondShift, "x0+1+1=x0\n"),
        (Slip::Unended, "x0=x1"),
        (Slip::EndAtLast, "x0=x1"),
        (Slip::FormFirst, "x100=05\n"),
        (Slip::Shallow, &format!("{}=x0\n", nested(16))),
        (Slip::Deep, &format!("{}=x0\n", nested(17))),
        (Slip::UnknownOver, "x100=x0\n"),
        (Slip::SymbolOver, "f256(x0)=x0\n"),
        (Slip::NoSign, "-32768=x0\n"),
        (Slip::LastDigit, "x1000=x0\n"),
        (Slip::TermFirst, &(full.clone() + "x100<x0\n")),
        (Slip::TermLate, &(full + "x64<x0\n")),
        (Slip::ZeroEnds, &(no_x0 + "x05<x1\n")),
        (Slip::LineLate, &(lines.clone() + "x0=x1\n")),
        (Slip::AnyLine, &(lines + " ")),
        (Slip::TwoZeros, "x0+0=x0-0\n"),
        (Slip::NoZero, "x0+0=x0\n"),
        (Slip::Crossed, "f130(x0,x1)=f130(x1,x0)\n"),
        (Slip::Again, "x0=x0\n"),
        (Slip::UnknownsFirst, "5=x0\n"),
        (Slip::ShiftInEntry, "x0=x1+3\n"),
        (Slip::RoomOver, "x0=x1\n"),
        (Slip::Clears, "x0=x1\n"),
        (Slip::Writes, "x05=x1\n"),
    ] {
        let answer = |reader: Reader| {
            let mut room = [0xAA; ROOM];
            (reader.read(text.as_bytes(), &mut room), room)
        };
        let (wrong, right) = (answer(Reader::with(slip)), answer(Reader::new()));
        assert_ne!(wrong, right, "{slip:?}");
    }
    for (slip, text, room) in [
        (Slip::RoomUnder, "x0=x1\n", 1_541),
        (Slip::RoomLast, "x05=x1\n", 1_541),
    ] {
        let answer = Reader::with(slip).read(text.as_bytes(), &mut vec![0; room]);
        assert_ne!(answer, (24, 0), "{slip:?}");
    }
}

fn texts() -> PathBuf {
    PathBuf::from(env!("CARGO_MANIFEST_DIR")).join("../texts")
}

#[test]
fn every_text_gets_the_line_expected_of_it() {
    let expected = fs::read_to_string(texts().join("expected")).unwrap();
    let mut panel = Panel::new();
    let mut lines = 0;
    for row in expected.lines() {
        let fields: Vec<&str> = row.split('\t').collect();
        let text = fs::read(texts().join(format!("{}.text", fields[0]))).unwrap();
        let got = match read(&text) {
            Ok(typed) => line(&answer(&mut panel, &typed)),
            Err((number, place)) => format!("refused {number} at {place}"),
        };
        assert_eq!(got, fields[1], "{}: {}", fields[0], fields[2]);
        lines += 1;
    }
    assert!(lines > 40, "the texts are there");
}

#[test]
fn sheets_without_c_in_their_entries_are_typed_byte_for_byte() {
    for (text, sheet) in [
        ("01-tied-by-two-bounds", "01"),
        ("02-one-bound", "02"),
        ("03-between-1-and-2", "03"),
        ("06-first-list", "06"),
        ("07-under-itself", "07"),
        ("10a-crossed", "10a"),
        ("10b-crossed-and-equal", "10b"),
        ("11-one-argument-and-two", "11"),
        ("symbols", "symbols"),
    ] {
        let text = fs::read(texts().join(format!("{text}.text"))).unwrap();
        let path = texts().join(format!("../sheets/{sheet}.sheet"));
        assert_eq!(read(&text), Ok(fs::read(path).unwrap()), "sheet {sheet}");
    }
}
