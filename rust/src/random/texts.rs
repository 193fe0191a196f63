//! The families of random texts. Each is a recipe for a place where a reader could go wrong. Rests
//! on request 1 of document 02, and not on the reader beside it.

use super::typist::Typist;
use super::Random;
use crate::sheet::MOST;

/// The longest text of a frame.
pub const LONGEST: usize = 65_536;

/// Bytes that a text can have, or that somebody may type.
const TYPED: &[u8] = b"xf0123456789()+-,=!<\n\n =x0f(>X\r\t.";

type Recipe = fn(&mut Random) -> Vec<u8>;

pub struct TextFamily {
    pub name: &'static str,
    pub about: &'static str,
    make: Recipe,
}

impl TextFamily {
    /// The bytes of one text of the family, always the same ones.
    pub fn text(&self, seed: u64, number: u64) -> Vec<u8> {
        let mut text = (self.make)(&mut Random::of(seed, self.name, number));
        text.truncate(LONGEST);
        text
    }
}

pub const TEXTS: [TextFamily; 13] = [
    TextFamily {
        name: "whole",
        about: "texts that are read, terms of every kind",
        make: whole,
    },
    TextFamily {
        name: "largest",
        about: "as many terms, lines or both as may be, one fewer, or one too many",
        make: largest,
    },
    TextFamily {
        name: "terms",
        about: "a term too many, well typed, out of range, cut or spoilt behind it",
        make: terms,
    },
    TextFamily {
        name: "lines",
        about: "as many lines as may be, and a byte that begins one or none behind them",
        make: lines,
    },
    TextFamily {
        name: "deep",
        about: "brackets 15 to 18 deep",
        make: deep,
    },
    TextFamily {
        name: "ranges",
        about: "numbers at both ends of their ranges, and over them",
        make: ranges,
    },
    TextFamily {
        name: "zeros",
        about: "leading zeros, -0, shifts by 0, and shifts where there may be none",
        make: zeros,
    },
    TextFamily {
        name: "again",
        about: "few terms, met again and again, and terms that look alike",
        make: again,
    },
    TextFamily {
        name: "spoilt",
        about: "a byte put in, taken out or changed, once or twice close together",
        make: spoilt,
    },
    TextFamily {
        name: "both",
        about: "a fault of another family and a spoilt byte close to it",
        make: both,
    },
    TextFamily {
        name: "cut",
        about: "texts that end too early",
        make: cut,
    },
    TextFamily {
        name: "bytes",
        about: "a few bytes that may begin a text, and bytes that never were one",
        make: bytes,
    },
    TextFamily {
        name: "long",
        about: "up to 65,536 bytes",
        make: long,
    },
];

/// One of some words with spaces between them.
fn word(random: &mut Random, words: &'static str) -> &'static str {
    let words: Vec<&str> = words.split_whitespace().collect();
    random.pick(&words)
}

/// Finds terms that aren't told apart, or take other numbers.
fn whole(random: &mut Random) -> Vec<u8> {
    let large = random.one_in(8);
    let (terms, lines) = (
        random.size(large, 1..=20, MOST),
        random.size(large, 1..=8, MOST),
    );
    Typist::new(random).filled(terms, lines).text.into_bytes()
}

/// Finds limits that are off by one.
fn largest(random: &mut Random) -> Vec<u8> {
    let close = [MOST - 1, MOST, MOST, MOST + 1];
    let (terms, lines) = match random.below(3) {
        0 => (random.pick(&close), random.count(1..=MOST)),
        1 => (random.count(1..=MOST), random.pick(&close)),
        _ => (random.pick(&close), random.pick(&close)),
    };
    Typist::new(random).filled(terms, lines).text.into_bytes()
}

/// Finds a term too many that is seen too late or too early, or given another's fault.
fn terms(random: &mut Random) -> Vec<u8> {
    const NEW: &[&str] = &["x0", "0", "x9", "x10", "x25", "x99", "32767", "-32768"];
    const OVER: &str = "x0 x05 x0- x0+5 x0+32768 x00 x9 x10 x100 x99 x990 x 0 05 0+5 -0 - 32767 \
        32768 -32768 -32769 327670 x25+25 x25-25 f256(x25) f255(x25) f7(0,x25) f7(x25,0) f7(0)5 \
        f7(0)x f7(0)+5 f7(0)-32769 f7(0,x25)05";
    let (terms, lines) = (
        random.pick(&[MOST - 2, MOST - 1, MOST, MOST]),
        random.count(1..=MOST - 4),
    );
    let mut typist = Typist::avoiding(random, NEW).filled(terms, lines);
    let (over, met) = (word(typist.random, OVER), typist.any_met());
    let line = match typist.random.below(4) {
        0 => format!("{met}<={over}"),
        1 => format!("f0({over},{met})<={met}"),
        2 => format!("{met}=f255({met},{over})"),
        _ => format!("{over}!={met}"),
    };
    let mut text = (typist.text + &line).into_bytes();
    match random.below(4) {
        0 => {
            // at the end of the last term, or near it
            let left = random.below(4).min(text.len());
            text.truncate(text.len() - left);
        }
        1 => text.push(random.pick(TYPED)),
        _ => text.push(b'\n'),
    }
    text
}

/// Finds a line too many that is seen too late, or taken for another fault.
fn lines(random: &mut Random) -> Vec<u8> {
    let (terms, lines) = (
        random.count(1..=MOST - 14),
        random.pick(&[MOST - 1, MOST, MOST]),
    );
    let mut text = Typist::new(random).filled(terms, lines).text.into_bytes();
    match random.below(8) {
        0 => {}
        1 => text.push(random.below(256) as u8),
        2 => text.extend(b"x100=x0\n"),
        3 => text.extend(b"32768=x0\n"),
        4 => text.extend(b"05=x0\n"),
        5 => text.extend(b"x0=x0\n"),
        _ => {
            let count = random.count(1..=4);
            text.extend((0..count).map(|_| random.pick(TYPED)));
        }
    }
    text
}

/// Finds a depth that is off by one, or counted over arguments that are closed.
fn deep(random: &mut Random) -> Vec<u8> {
    let (terms, lines) = (random.count(1..=6), random.count(1..=3));
    let mut typist = Typist::new(random).filled(terms, lines);
    for _ in 0..typist.random.count(1..=3) {
        let depth = typist.random.pick(&[3, 15, 16, 16, 17, 18]);
        let mut term = typist.any_met();
        for _ in 0..depth {
            let symbol = typist.random.pick(&[0, 7, 255]);
            term = match typist.random.below(5) {
                0 => format!("f{symbol}(f8(5),{term})"),
                1 => format!("f{symbol}({term},f8(5))"),
                2 => format!("f{symbol}({term})+0"),
                _ => format!("f{symbol}({term})"),
            };
        }
        let met = typist.any_met();
        typist.line_of(&term, &met);
    }
    typist.text.into_bytes()
}

/// Finds a range that is off by one, forgets the sign, or runs over.
fn ranges(random: &mut Random) -> Vec<u8> {
    let (terms, lines) = (random.count(1..=6), random.count(1..=3));
    let mut typist = Typist::new(random).filled(terms, lines);
    for _ in 0..typist.random.count(1..=3) {
        let mut number = |close| match typist.random.below(12) {
            0 => format!("1{}", "0".repeat(typist.random.count(5..=40))),
            1 => word(typist.random, "65536 4294967296 18446744073709551616").to_string(),
            _ => word(typist.random, close).to_string(),
        };
        let unknown = number("0 9 10 98 99 99 100 256 990");
        let symbol = number("0 9 99 100 254 255 255 256 260 300 2550");
        let c = number("0 1 9999 32766 32767 32767 32768 32768 32769 32770 40000 65535 327670");
        let sign = typist.random.pick(&["+", "-"]);
        let minus = match c.as_str() {
            "0" => "",
            _ => typist.random.pick(&["", "-"]),
        };
        let term = match typist.random.below(6) {
            0 => format!("x{unknown}"),
            1 => format!("f{symbol}(x1)"),
            2 => format!("{minus}{c}"),
            3 => format!("x1{sign}{c}"),
            4 => format!("f7({minus}{c}){sign}{c}"),
            _ => format!("f{symbol}(x{unknown}{sign}{c},{minus}{c})"),
        };
        let met = typist.any_met();
        typist.line_of(&term, &met);
    }
    typist.text.into_bytes()
}

/// Finds zeros and shifts that are let through, and shifts by 0 that are taken for two terms.
fn zeros(random: &mut Random) -> Vec<u8> {
    const RIGHT: &str = "0 x0 x0+0 x0-0 f0(x0) f0(x0)-0 f0(0,x0-0) f0(0,x0+0)";
    const WRONG: &str = "-0 f0(x0,-0) -01 00 01 x00 x05 f00(x0) f01(x0) x0+00 x0-05 f0(x0)+05 x-0 \
        f-0(x0) +5 --1 5+1 0-0 x0+1+1 x0-0-0 f0(x0)-1+1 x0+ x0--1 x0+x0";
    let mut typist = Typist::new(random);
    let wrong = typist.random.coin();
    for _ in 0..typist.random.count(1..=6) {
        let term = match wrong && typist.random.coin() {
            true => word(typist.random, WRONG),
            false => word(typist.random, RIGHT),
        };
        let other = word(typist.random, "x0 x0+0 x0-0 0");
        typist.line_of(term, other);
    }
    typist.text.into_bytes()
}

/// Finds terms that are numbered twice, or taken for others.
fn again(random: &mut Random) -> Vec<u8> {
    const ALIKE: &str = "x0 x1 x10 1 10 -1 x0+1 x0-1 x0+10 x1+0 x1-0 f0(x0) f0(x0,x0) f0(x0,x1) \
        f0(x1,x0) f1(x0,x1) f10(x0,x1) f1(x0) f10(x0) f0(x0)+1 f0(x0+1) f130(x0,x1) f130(x1,x0) \
        f0(f0(x0),f0(x0)-0)";
    let large = random.one_in(8);
    let mut typist = Typist::new(random);
    for _ in 0..typist.random.size(large, 1..=20, MOST) {
        let (a, b) = (word(typist.random, ALIKE), word(typist.random, ALIKE));
        typist.line(a, b);
    }
    typist.text.into_bytes()
}

/// Finds what is let through, and a fault that is given at another byte.
fn spoilt(random: &mut Random) -> Vec<u8> {
    let mut text = whole(random);
    let at = random.below(text.len() + 1);
    for _ in 0..random.pick(&[1, 1, 2, 3]) {
        spoil(random, &mut text, at);
    }
    text
}

/// Puts in, takes out or changes a byte at a place, or close to it.
fn spoil(random: &mut Random, text: &mut Vec<u8>, near: usize) {
    let at = (near + random.below(4)).min(text.len());
    let byte = match random.below(16) {
        0 => random.below(256) as u8,
        _ => random.pick(TYPED),
    };
    match random.below(4) {
        0 => text.insert(at, byte),
        1 if at < text.len() => {
            text.remove(at);
        }
        2 if at < text.len() => {
            // what stands here already, once more
            let again = text[at];
            text.insert(at, again);
        }
        _ if at < text.len() => text[at] = byte,
        _ => text.push(byte),
    }
}

/// Finds two faults of which another than the earliest is given.
fn both(random: &mut Random) -> Vec<u8> {
    let of = random.pick::<Recipe>(&[terms, lines, deep, ranges, zeros]);
    let mut text = of(random);
    // These families have their faults near the end.
    let near = text.len().saturating_sub(random.count(1..=24));
    spoil(random, &mut text, near);
    text
}

/// Finds a text that is taken though it goes on, and one that is sent back at another place.
fn cut(random: &mut Random) -> Vec<u8> {
    let of = random.pick::<Recipe>(&[whole, whole, deep, ranges, zeros, again]);
    let mut text = of(random);
    let left = match random.below(3) {
        0 => text.len().saturating_sub(1),
        1 => random.below(12).min(text.len()),
        _ => random.below(text.len() + 1),
    };
    text.truncate(left);
    text
}

/// Finds what no other family thought of.
fn bytes(random: &mut Random) -> Vec<u8> {
    // a semicolon for a newline
    const PARTS: &str =
        "x x0 x1 x99 f f7 f7( f0(x0 ( ) , + - 0 1 5 -1 = ! != < <= ; ; x0=x0; x0= +1 -0";
    let count = random.count(0..=10);
    match random.below(4) {
        0 => (0..count).map(|_| random.below(256) as u8).collect(),
        1 => (0..count).map(|_| random.pick(TYPED)).collect(),
        _ => {
            let parts: Vec<&str> = (0..count).map(|_| word(random, PARTS)).collect();
            parts.concat().replace(';', "\n").into_bytes()
        }
    }
}

/// Finds counts and places that run over, and work that grows with the text's square.
fn long(random: &mut Random) -> Vec<u8> {
    let close = [1, 10, MOST - 12, MOST - 8, MOST - 4];
    let (terms, lines) = (random.pick(&close), random.count(1..=10));
    let mut typist = Typist::new(random).filled(terms, lines);
    // A term of two equal terms, again and again: few terms and many bytes.
    let mut term = typist.any_met();
    for symbol in 0..typist.random.count(4..=13) {
        term = format!("f{symbol}({term},{term})");
    }
    for _ in 0..typist.random.pick(&[1, 1, 2, 4, 50]) {
        let met = typist.any_met();
        if typist.text.len() + term.len() + met.len() + 3 <= LONGEST {
            typist.line_of(&term, &met);
        }
    }
    let mut text = typist.text.into_bytes();
    match random.below(8) {
        0 => {
            text = [
                b"x".to_vec(),
                vec![random.pick(b"019"); random.below(LONGEST)],
            ]
            .concat()
        }
        1 => text.resize(random.count(1..=LONGEST), random.pick(TYPED)),
        2 => text.truncate(random.below(text.len())),
        3 => {
            let near = random.below(text.len());
            spoil(random, &mut text, near);
        }
        4 => text.extend(deep(random)),
        5 => text.extend(ranges(random)),
        _ => {}
    }
    text
}

#[cfg(test)]
mod tests {
    use super::*;
    use crate::text::{Reader, ROOM};

    fn answers(name: &str) -> Vec<(u8, u32)> {
        let family = TEXTS.iter().find(|family| family.name == name);
        let family = family.expect("a family of this name");
        let read = |number| Reader::new().read(&family.text(5, number), &mut [0; ROOM]);
        (0..400).map(read).collect()
    }

    #[test]
    fn a_text_rests_on_seed_family_and_number() {
        let text = TEXTS[0].text(1, 2);
        assert_eq!(text, TEXTS[0].text(1, 2));
        assert_ne!(text, TEXTS[0].text(1, 3));
        assert_ne!(text, TEXTS[0].text(2, 2));
        assert_ne!(text, TEXTS[1].text(1, 2));
    }

    #[test]
    fn each_family_gets_the_answers_that_it_is_made_for() {
        for (name, numbers) in [
            ("whole", &[0][..]),
            ("largest", &[0, 23]),
            ("terms", &[0, 20, 22, 23]),
            ("lines", &[0, 20, 23]),
            ("deep", &[0, 21]),
            ("ranges", &[0, 22]),
            ("zeros", &[0, 20]),
            ("again", &[0]),
            ("spoilt", &[0, 20, 22]),
            ("both", &[0, 20, 21, 22, 23]),
            ("cut", &[20, 21, 22]),
            ("bytes", &[20]),
            ("long", &[0, 20, 21, 22, 23]),
        ] {
            let answers = answers(name);
            for &number in numbers {
                let count = answers.iter().filter(|answer| answer.0 == number).count();
                assert!(count >= 8, "{count} in 400 of {name} get {number}");
            }
        }
    }

    #[test]
    fn texts_have_as_many_terms_and_lines_as_were_asked_for() {
        let mut room = [0; ROOM];
        for number in 0..1000 {
            let random = &mut Random::of(5, "filled", number);
            let [terms, lines] = [(); 2].map(|_| random.size(true, 1..=1, MOST));
            let text = Typist::new(random).filled(terms, lines).text;
            assert_eq!(
                Reader::new().read(text.as_bytes(), &mut room).0,
                0,
                "{text}"
            );
            assert_eq!(room[3..5], [terms as u8, lines as u8], "{text}");
        }
    }

    #[test]
    fn long_texts_are_long_and_refused_late() {
        let late = answers("long")
            .into_iter()
            .filter(|&(_, place)| place > 30_000);
        let mut numbers: Vec<u8> = late.map(|(number, _)| number).collect();
        numbers.sort_unstable();
        numbers.dedup();
        assert_eq!(numbers, [20, 21, 22, 23]);
    }
}
