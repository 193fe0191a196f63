//! The form of a text by its own definition, as sets of strings: which are whole, and which begin a
//! whole one, sizes and depths left aside. It shares nothing with the reader, which asks byte by byte.

use second::text::{Reader, ROOM};
use std::collections::BTreeSet;

/// Strings up to this length are looked at.
const LENGTH: usize = 8;

/// The bytes of the form, with two digits for all.
const BYTES: &[u8] = b"xf01()+-,=!<\n";

type Strings = BTreeSet<Vec<u8>>;

/// The strings of some form, and all that begin one, as far as they aren't too long.
#[derive(Clone, Default, PartialEq, Eq)]
struct Form {
    whole: Strings,
    begun: Strings,
}

fn this(string: &str) -> Form {
    let begun = (0..=string.len()).map(|length| string.as_bytes()[..length].to_vec());
    Form {
        whole: [string.as_bytes().to_vec()].into(),
        begun: begun.collect(),
    }
}

fn any_of(forms: &[Form]) -> Form {
    Form {
        whole: forms.iter().flat_map(|form| form.whole.clone()).collect(),
        begun: forms.iter().flat_map(|form| form.begun.clone()).collect(),
    }
}

/// One behind the other. Every form has a whole string, so that what begins the first begins both.
fn row(forms: &[Form]) -> Form {
    let mut row = this("");
    for form in forms {
        let behind = |strings: &Strings| -> Strings {
            let all = row.whole.iter().flat_map(|first| {
                let fits = |second: &&Vec<u8>| first.len() + second.len() <= LENGTH;
                let both = |second: &Vec<u8>| [&first[..], second].concat();
                strings.iter().filter(fits).map(both).collect::<Vec<_>>()
            });
            all.collect()
        };
        let (whole, begun) = (behind(&form.whole), behind(&form.begun));
        row.whole = whole;
        row.begun.extend(begun);
    }
    row
}

/// Grows a form that is part of itself until it grows no more.
fn grown(grow: impl Fn(&Form) -> Form) -> Form {
    let mut form = Form::default();
    loop {
        let more = grow(&form);
        if more == form {
            return form;
        }
        form = more;
    }
}

fn text() -> Form {
    let digits = grown(|digits| {
        let digit = any_of(&[this("0"), this("1")]);
        any_of(&[this(""), row(&[digit, digits.clone()])])
    });
    let not_zero = row(&[this("1"), digits]);
    let number = any_of(&[this("0"), not_zero.clone()]);
    let sign = any_of(&[this("+"), this("-")]);
    let shift = any_of(&[this(""), row(&[sign, number.clone()])]);
    let unknown = row(&[this("x"), number.clone()]);
    let negative = row(&[this("-"), not_zero]);
    let term = grown(|term| {
        let second = any_of(&[this(""), row(&[this(","), term.clone()])]);
        let symbol = row(&[this("f"), number.clone()]);
        let list = row(&[this("("), term.clone(), second, this(")")]);
        let plain = any_of(&[unknown.clone(), row(&[symbol, list])]);
        any_of(&[
            number.clone(),
            negative.clone(),
            row(&[plain, shift.clone()]),
        ])
    });
    let comparison = any_of(&[this("="), this("!="), this("<="), this("<")]);
    let line = row(&[term.clone(), comparison, term, this("\n")]);
    grown(|text| row(&[line.clone(), any_of(&[this(""), text.clone()])]))
}

#[test]
fn short_strings_get_20_where_no_whole_text_begins_so() {
    let text = text();
    let (mut whole, mut begun, mut faults) = (0, 0, 0);
    for start in text.begun.iter().filter(|start| start.len() < LENGTH) {
        for &byte in BYTES {
            let string = [&start[..], &[byte]].concat();
            let expected = if text.whole.contains(&string) {
                whole += 1;
                None
            } else if text.begun.contains(&string) {
                begun += 1;
                Some((20, string.len() as u32))
            } else {
                faults += 1;
                Some((20, start.len() as u32))
            };
            let answer = Reader::new().read(&string, &mut [0; ROOM]);
            let shown = string.escape_ascii();
            match (answer, expected) {
                // What a number may be is asked elsewhere.
                ((22, _), _) => {}
                ((0, _), None) => {}
                (answer, expected) => assert_eq!(Some(answer), expected, "{shown}"),
            }
        }
    }
    assert!(
        whole > 1_000 && begun > 20_000 && faults > 50_000,
        "{whole} whole, {begun} begun, {faults} faults"
    );
}
