//! Times the proved panel and the independent one on the same sheets, turn by turn; the proved call
//! for reasons beside the proved panel; the proved check of those reasons beside the independent one;
//! and readers of texts: the proved one, the independent one and a quick one.
//!
//!     time          a line for each sheet and text: what it is, nanoseconds of each (- for one that isn't built in);
//!                   for each reason the number of bounds in its walks, and for those over a shared
//!                   path before it the ties on the path and the function ties that rest on it
//!     time texts    the same for texts alone
//!     time smt      the same sheets as questions to an SMT solver, each after a line that says what it is
//!
//! A verdict is a call on a sheet that holds, and so makes no list; a first list is a call on one
//! that clashes, and a reason is one on the same sheet that makes the list and writes a reason for it.
//! A check is one of the panel's own reason: the independent one is timed from the same bytes, and
//! from steps that are told already. A shared path is a reason by hand, whose function ties all rest
//! on one path. A reading is a call on a text that is one, and its size the text's bytes.

use bench::timing::{side_by_side, Side};
use bench::{quick, SIZES};
use second::random::sheet::{Kind, Sheet, Term, TermRecord};
use second::random::texts::TEXTS;
use second::random::Random;
#[cfg(feature = "panel")]
use second::reason::{Bound, Step};
use second::sheet::{MOST, ROOM};
use second::text::{Reader, ROOM as SHEET_ROOM};
use second::Panel;
use std::fmt::Write;

fn main() {
    match std::env::args().nth(1).as_deref() {
        Some("texts") => texts(),
        Some("smt") => sheets(true),
        _ => {
            sheets(false);
            #[cfg(feature = "panel")]
            shared_paths();
            texts();
        }
    }
}

fn sheets(smt: bool) {
    for &size in &SIZES {
        for (family, make) in FAMILIES {
            for holds in [true, false] {
                let sheet = make(size, holds);
                let name = format!("{family} {size} {}", if holds { "verdict" } else { "list" });
                let list = list(&sheet.bytes(), holds, &name);
                if smt {
                    ask(&name, &sheet, &list);
                } else {
                    time(&name, &sheet.bytes());
                    #[cfg(feature = "panel")]
                    if !holds {
                        reason(&format!("{family} {size} reason"), &sheet.bytes(), &list);
                        check(&format!("{family} {size}"), &sheet.bytes(), &list);
                    }
                }
            }
        }
    }
}

/// Sheets of so many terms and entries, with or without a clash.
type Make = fn(usize, bool) -> Sheet;

const FAMILIES: [(&str, Make); 7] = [
    ("chain", chain),
    ("chain, shuffled", |size, holds| {
        chain(size, holds).shuffled(&mut Random::of(1, "bench", size as u64))
    }),
    ("dense", dense),
    ("dense, clash near the end", near_the_end),
    ("tower", tower),
    ("tower, tied", tied_tower),
    ("rounds", rounds),
];

/// Each unknown below the next, and the last at most the first and as much: no room at all, or one
/// step too little. Every entry is needed.
fn chain(size: usize, holds: bool) -> Sheet {
    let mut sheet = Sheet::new();
    let x = sheet.unknowns(size);
    for pair in x.windows(2) {
        sheet.at_most(pair[0], pair[1], -100);
    }
    let back = 100 * (size as i64 - 1);
    sheet.at_most(x[size - 1], x[0], if holds { back } else { back - 1 });
    sheet
}

/// Bounds between any two of the unknowns, with a little room around hidden levels; the clash is
/// between three in the middle.
fn dense(size: usize, holds: bool) -> Sheet {
    let random = &mut Random::of(2, "bench", size as u64);
    let mut sheet = around_levels(size, random);
    if !holds {
        let [a, b, c] = [Term(0), Term(1), Term(2)];
        for (at, (a, b)) in [(a, b), (b, c), (c, a)].into_iter().enumerate() {
            let entry = &mut sheet.entries[size / 2 - 1 + at];
            (entry.kind, entry.a, entry.b, entry.c) = (Kind::Under, a, b, 0);
        }
    }
    sheet
}

/// The same, where the last entry clashes with two others.
fn near_the_end(size: usize, holds: bool) -> Sheet {
    let random = &mut Random::of(3, "bench", size as u64);
    let mut sheet = around_levels(size, random);
    if !holds {
        let (one, two) = (sheet.entries[size / 2], sheet.entries[size - 2]);
        sheet.entries[size - 2] = one;
        (sheet.entries[size - 2].a, sheet.entries[size - 2].b) = (one.b, two.a);
        sheet.entries[size - 2].c = 5;
        let last = &mut sheet.entries[size - 1];
        (last.kind, last.a, last.b, last.c) = (Kind::Under, two.a, one.a, -one.c - 5);
    }
    sheet
}

fn around_levels(size: usize, random: &mut Random) -> Sheet {
    let mut sheet = Sheet::new();
    let x = sheet.unknowns(size);
    let level: Vec<i64> = x.iter().map(|_| random.within(-1000..=1000)).collect();
    for at in 0..size {
        let (a, b) = (random.below(size), random.below(size));
        let kind = [Kind::AtMost, Kind::Under][at % 2];
        sheet.enter(kind, x[a], x[b], level[a] - level[b] + random.within(1..=3));
    }
    sheet
}

/// Two towers of one function over x and y, with x ≤ y below, and a ≠ on each floor; where it
/// clashes, x = y below by two bounds, and the tops are unequal.
fn tower(size: usize, holds: bool) -> Sheet {
    floors(size, holds, false)
}

/// Two towers that are equal, since x = y below by two bounds, with a bound on each floor.
fn tied_tower(size: usize, holds: bool) -> Sheet {
    floors(size, holds, true)
}

fn floors(size: usize, holds: bool, tied: bool) -> Sheet {
    let mut sheet = Sheet::new();
    let (x, y) = (sheet.unknown(), sheet.unknown());
    let (mut fx, mut fy) = (x, y);
    sheet.at_most(x, y, 0);
    if tied || !holds {
        sheet.at_most(y, x, 0);
    }
    while sheet.terms.len() < size {
        (fx, fy) = (sheet.one(7, fx), sheet.one(7, fy));
        if tied {
            sheet.at_most(fx, fy, 0);
            sheet.at_most(fy, fx, 1);
        } else {
            if holds {
                sheet.unequal(fx, fy, 0);
            } else {
                sheet.at_most(fy, y, 1000);
            }
            sheet.at_most(fx, x, 1000);
        }
    }
    sheet.entries.truncate(size - 1);
    if !holds {
        sheet.unequal(fx, fy, 0);
    }
    sheet
}

/// As sheet 13, longer: each floor is tied by bounds, and the next by functions of it.
fn rounds(size: usize, holds: bool) -> Sheet {
    let mut sheet = Sheet::new();
    let (mut x, mut y) = (sheet.unknown(), sheet.unknown());
    sheet.at_most(x, y, 0);
    sheet.at_most(y, x, 0);
    while sheet.terms.len() + 4 <= size && sheet.entries.len() + 4 <= size {
        let (fx, fy) = (sheet.one(7, x), sheet.one(7, y));
        let (u, v) = (sheet.unknown(), sheet.unknown());
        sheet.at_most(fx, u, 0);
        sheet.at_most(u, fy, 0);
        sheet.equal(v, fx, 0);
        (x, y) = (u, v);
    }
    if !holds {
        sheet.unequal(x, y, 0);
    }
    sheet
}

/// The list, from the independent panel; the sheet must be what its name says.
fn list(sheet: &[u8], holds: bool, name: &str) -> Vec<u8> {
    let mut room = [0; ROOM];
    let (number, length) = Panel::new().judge(sheet, &mut room);
    assert_eq!(number, u8::from(!holds), "{name}");
    if holds {
        Vec::new()
    } else {
        room[8..usize::from(length)].to_vec()
    }
}

fn time(name: &str, sheet: &[u8]) {
    let mut second = Panel::new();
    let mut room = [0; ROOM];
    let right = second.judge(sheet, &mut room);
    compare(name, sheet, right, &room);
    let independent = || second.judge(sheet, &mut room).1;
    side_by_side(name, [proved(sheet), Some(Box::new(independent))], right.1);
}

/// Stops where the proved panel says something else than the independent one, with this number,
/// place and room: times of different answers couldn't be compared. Values are free, so of those
/// only the length is held to the other's.
#[cfg(feature = "panel")]
fn compare(name: &str, sheet: &[u8], right: (u8, u16), room: &[u8]) {
    let mut own_room = [0; ROOM];
    let answer = baruvkesh::judge(sheet, &mut own_room);
    let got = (answer.number(), answer.place() as u16);
    if got != right {
        eprintln!("{name}: answered {got:?}, where the independent panel has {right:?}");
        std::process::exit(1);
    }
    let record = ..usize::from(right.1);
    if right.0 == 1 && own_room[record] != room[record] {
        let (own, other) = (&own_room[record], &room[record]);
        eprintln!("{name}: the record is {own:?}, where the independent panel has {other:?}");
        std::process::exit(1);
    }
}

#[cfg(not(feature = "panel"))]
fn compare(_: &str, _: &[u8], _: (u8, u16), _: &[u8]) {}

/// Calls of the proved panel.
#[cfg(feature = "panel")]
fn proved(sheet: &[u8]) -> Side<'_> {
    let mut room = [0; ROOM];
    Some(Box::new(move || {
        baruvkesh::judge(sheet, &mut room).place() as u16
    }))
}

#[cfg(not(feature = "panel"))]
fn proved(_: &[u8]) -> Side<'_> {
    None
}

/// The call for reasons beside the panel's, which makes the same list and writes no reason.
#[cfg(feature = "panel")]
fn reason(name: &str, sheet: &[u8], list: &[u8]) {
    let mut room = vec![0; baruvkesh::REASON_ROOM];
    let reasoned = || match baruvkesh::reason(sheet, &mut room) {
        baruvkesh::Reasoned::Written(reason) => 8 + reason.entries().count() as u16,
        other => panic!("{name}: {other:?}"),
    };
    let place = 8 + list.len() as u16;
    side_by_side(name, [Some(Box::new(reasoned)), proved(sheet)], place);
}

/// Checks of the panel's own reason.
#[cfg(feature = "panel")]
fn check(name: &str, sheet: &[u8], list: &[u8]) {
    let mut room = vec![0; baruvkesh::REASON_ROOM];
    let bytes = match baruvkesh::reason(sheet, &mut room) {
        baruvkesh::Reasoned::Written(reason) => reason.step_bytes(),
        other => panic!("{name}: {other:?}"),
    };
    let bounds = check_bytes(&format!("{name} check"), sheet, list, bytes);
    println!("{name} bounds\t{bounds}");
}

/// Checks of the same bytes, which get a yes; a side's place is whether it says so. How many bounds
/// there are in their walks.
#[cfg(feature = "panel")]
fn check_bytes(name: &str, sheet: &[u8], list: &[u8], bytes: &[u8]) -> usize {
    let steps = bench::told::steps(bytes);
    let proved = || u16::from(bench::survey(sheet, list, bytes) == (0, 0));
    let independent = || u16::from(bench::told::answer(sheet, list, bytes) == (0, 0));
    let of_steps = || u16::from(second::reason::survey(sheet, list, &steps).is_ok());
    let sides: [Side; 3] = [
        Some(Box::new(proved)),
        Some(Box::new(independent)),
        Some(Box::new(of_steps)),
    ];
    side_by_side(name, sides, 1);
    let bounds = steps
        .iter()
        .map(|step| step.first.len() + step.second.len());
    bounds.sum()
}

/// Checks of reasons whose function ties all rest on one path.
#[cfg(feature = "panel")]
fn shared_paths() {
    for &size in &SIZES {
        let (sheet, steps) = shared_path(size);
        let list: Vec<u8> = (0..sheet.entries.len() as u8).collect();
        let bytes: Vec<u8> = steps.iter().flat_map(|step| step.bytes()).collect();
        let name = format!("shared path {size}");
        let bounds = check_bytes(&format!("{name} path"), &sheet.bytes(), &list, &bytes);
        let count = |kind| steps.iter().filter(|step| step.kind == kind).count();
        let (ties, functions) = (count(Step::BY_WALKS), count(Step::BY_FUNCTIONS));
        println!("{name} shared\t{ties}\t{functions}\t{bounds}");
    }
}

/// Unknowns that are tied one by one, pairs of applications to the first and to the last of them,
/// which are tied by that, and a walk that closes over all of these in turn.
#[cfg(feature = "panel")]
fn shared_path(size: usize) -> (Sheet, Vec<Step>) {
    let (mut sheet, mut steps) = (Sheet::new(), Vec::new());
    let x = sheet.unknowns(size / 3 + 1);
    for pair in x.windows(2) {
        let (a, b, entry) = (pair[0], pair[1], Bound::entry(sheet.entries.len() as u8));
        sheet.equal(a, b, 0);
        steps.push(Step::by_walks(a.0, b.0, 0, vec![entry], vec![entry.back()]));
    }
    let mut pairs = Vec::new();
    for symbol in 0..(size - x.len()) / 2 {
        let of = |sheet: &mut Sheet, x| sheet.one(symbol as u8, x);
        pairs.push((of(&mut sheet, x[0]), of(&mut sheet, x[x.len() - 1])));
    }
    let mut round = Vec::new();
    for (at, &(a, b)) in pairs.iter().enumerate() {
        let (tie, entry) = (steps.len() as u8, sheet.entries.len() as u8);
        let (next, _) = pairs[(at + 1) % pairs.len()];
        sheet.enter([Kind::Under, Kind::AtMost][at.min(1)], b, next, 0);
        steps.push(Step::by_functions(a.0, b.0));
        round.extend([Bound::tie(tie), Bound::entry(entry)]);
    }
    steps.push(Step::walk(pairs[0].0 .0, round));
    (sheet, steps)
}

fn texts() {
    agree();
    for (name, make) in TYPED {
        let text = make();
        read(&format!("{name} {} reading", text.len()), text.as_bytes());
    }
}

/// Texts that readers are timed on. Figures look for "128 lines" in the name.
const TYPED: [(&str, fn() -> String); 6] = [
    ("three lines", || {
        "x0<=x1\nx1<=x0\nf7(x0)!=f7(x1)\n".to_string()
    }),
    ("128 lines of bounds, 128 terms", || bounds(32, 3)),
    ("128 lines of bounds, 16 terms", || bounds(8, 1)),
    ("128 lines of towers, 6 deep", || towers(6)),
    ("128 lines of towers, 16 deep", || towers(16)),
    ("a tree, long", tree),
];

/// Each unknown at most another, shifted; there are so many of them, and so many shifts of each.
fn bounds(unknowns: usize, shifts: usize) -> String {
    let mut text = String::new();
    for line in 0..MOST {
        let (i, j, shift) = (
            line % unknowns,
            (5 * line + 3) % unknowns,
            line / unknowns % shifts,
        );
        let k = 100 * j as i64 - 37 * shift as i64 - 400;
        writeln!(text, "x{}<=x{}{k:+}", 3 * i, 3 * j).unwrap();
    }
    text
}

/// Towers of applications over two unknowns, of every height.
fn towers(deepest: usize) -> String {
    let tower = |floors, mut term: String| {
        for floor in 0..floors {
            term = match floor % 3 {
                2 => format!("f130({term},x1)"),
                _ => format!("f7({term})"),
            };
        }
        term
    };
    let mut text = String::new();
    for line in 0..MOST {
        let (low, high) = (tower(line % deepest, "x0".to_string()), 1 + line % deepest);
        let high = tower(high, format!("x{}", line % 2));
        writeln!(text, "{low}<{high}").unwrap();
    }
    text
}

/// A term that has itself twice, again and again: few terms in many bytes.
fn tree() -> String {
    let (mut term, mut text) = ("x0".to_string(), String::new());
    for symbol in 0..12 {
        term = format!("f{symbol}({term},{term})");
        if symbol >= 9 {
            writeln!(text, "{term}<=x1").unwrap();
        }
    }
    assert!(text.len() >= 30_000);
    text
}

fn read(name: &str, text: &[u8]) {
    let mut right_room = [0; SHEET_ROOM];
    let right = Reader::new().read(text, &mut right_room);
    assert_eq!(right.0, 0, "{name}");
    let [mut proved_room, mut clear_room, mut quick_room] = [[0; SHEET_ROOM]; 3];
    let clear = || Reader::new().read(text, &mut clear_room).1 as u16;
    let quick = || quick::read(text, &mut quick_room).1 as u16;
    let sides = [
        transcribing(text, &mut proved_room),
        Some(Box::new(clear)),
        Some(Box::new(quick)),
    ];
    side_by_side(name, sides, right.1 as u16);
    // what was timed was all written, and is the same
    let proved = !cfg!(feature = "panel") || proved_room == right_room;
    assert!(proved, "{name}: the proved reader's sheet is another");
    assert!(clear_room == right_room && quick_room == right_room);
}

/// Calls of the proved reader.
#[cfg(feature = "panel")]
fn transcribing<'a>(text: &'a [u8], room: &'a mut [u8]) -> Side<'a> {
    Some(Box::new(move || bench::transcribe(text, room).1 as u16))
}

#[cfg(not(feature = "panel"))]
fn transcribing<'a>(_: &'a [u8], _: &'a mut [u8]) -> Side<'a> {
    None
}

/// Stops where the quick reader isn't one: leaving something out would make it quicker.
fn agree() {
    for family in &TEXTS {
        for number in 0..100 {
            let text = family.text(1, number);
            let [mut room, mut right_room] = [[0; SHEET_ROOM]; 2];
            let right = Reader::new().read(&text, &mut right_room);
            let same = quick::read(&text, &mut room) == right && room == right_room;
            assert!(same, "the quick reader differs: {}", text.escape_ascii());
        }
    }
}

/// The sheet for an SMT solver, in SMT-LIB 2: the question for all entries, and for a list the one
/// for each entry that is tried to be left out. All answers are known from the list, and stated.
fn ask(name: &str, sheet: &Sheet, list: &[u8]) {
    println!("; {name}");
    println!("(set-logic QF_UFLRA)");
    for symbol in [7, 8] {
        println!("(declare-fun f{symbol} (Real) Real)");
        println!("(declare-fun g{symbol} (Real Real) Real)");
    }
    for (own, term) in sheet.terms.iter().enumerate() {
        println!("(declare-fun t{own} () Real)");
        match *term {
            TermRecord::Unknown => {}
            TermRecord::Number(c) => println!("(assert (= t{own} {}))", number(c)),
            TermRecord::Shift(a, c) => println!("(assert (= t{own} (+ t{} {})))", a.0, number(c)),
            TermRecord::One(f, a) => println!("(assert (= t{own} (f{f} t{})))", a.0),
            TermRecord::Two(f, a, b) => println!("(assert (= t{own} (g{f} t{} t{})))", a.0, b.0),
        }
    }
    let all: Vec<usize> = (0..sheet.entries.len()).collect();
    let mut sets = vec![(all.clone(), list.is_empty())];
    if !list.is_empty() {
        let listed = |entry: usize| list.contains(&(entry as u8));
        for &left_out in all.iter().rev() {
            let kept = |&entry: &usize| entry < left_out || entry > left_out && listed(entry);
            sets.push((all.iter().copied().filter(kept).collect(), listed(left_out)));
        }
    }
    for (set, holds) in sets {
        println!("(push)");
        println!("(set-info :status {})", if holds { "sat" } else { "unsat" });
        for entry in set {
            let entry = sheet.entries[entry];
            let right = format!("(+ t{} {})", entry.b.0, number(entry.c));
            let left = format!("t{}", entry.a.0);
            match entry.kind {
                Kind::Equal => println!("(assert (= {left} {right}))"),
                Kind::Unequal => println!("(assert (not (= {left} {right})))"),
                Kind::AtMost => println!("(assert (<= {left} {right}))"),
                Kind::Under => println!("(assert (< {left} {right}))"),
            }
        }
        println!("(check-sat)");
        println!("(pop)");
    }
}

fn number(c: i64) -> String {
    if c < 0 {
        format!("(- {}.0)", -c)
    } else {
        format!("{c}.0")
    }
}
