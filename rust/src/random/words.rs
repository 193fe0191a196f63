//! A sheet shown to people: in hex, a record a line, and in words.

/// The bytes in hex, six a line, as the head and the records have.
pub fn hex(sheet: &[u8]) -> Vec<String> {
    let line = |six: &[u8]| list(six.iter().map(|byte| format!("{byte:02X}")), " ");
    sheet.chunks(6).map(line).collect()
}

/// Bytes of no such form in hex.
pub fn rows(bytes: &[u8]) -> Vec<String> {
    let line = |part: &[u8]| list(part.iter().map(|byte| format!("{byte:02X}")), " ");
    bytes.chunks(32).map(line).collect()
}

/// The head, and the terms and entries if there are as many as the head says.
pub fn words(sheet: &[u8]) -> Vec<String> {
    let lent = sheet.len();
    let (version, t, l, five, records) = match *sheet {
        [_, _, version, t, l, five, ref records @ ..] => (version, t, l, five, records),
        _ => return vec![format!("{lent} bytes, too few for a head")],
    };
    let stated = u16::from_be_bytes([sheet[0], sheet[1]]);
    let mut lines = vec![format!(
        "head: {lent} bytes and {stated} stated, version {version}, T {t}, L {l}, byte 5 is {five}"
    )];
    if records.len() == 6 * (usize::from(t) + usize::from(l)) {
        let (terms, entries) = records.split_at(6 * usize::from(t));
        let terms = terms
            .chunks(6)
            .enumerate()
            .map(|(own, record)| term(own, record));
        let entries = entries
            .chunks(6)
            .enumerate()
            .map(|(own, record)| entry(own, record, t));
        lines.push(format!("terms: {}", list(terms, ", ")));
        lines.push(format!("entries: {}", list(entries, ", ")));
    }
    lines
}

fn list(items: impl Iterator<Item = String>, between: &str) -> String {
    items.collect::<Vec<_>>().join(between)
}

fn term(own: usize, record: &[u8]) -> String {
    let below = |argument: u8| usize::from(argument) < own;
    match *record {
        [0, 0, 0, 0, 0, 0] => format!("t{own} unknown"),
        [1, 0, 0, 0, _, _] => format!("t{own} = {}", c(record)),
        [2, 0, a, 0, _, _] if below(a) => format!("t{own} = {}", shifted(a, c(record))),
        [3, symbol, a, 0, 0, 0] if below(a) => format!("t{own} = f{symbol}(t{a})"),
        [4, symbol, a, b, 0, 0] if below(a) && below(b) => {
            format!("t{own} = f{symbol}(t{a}, t{b})")
        }
        _ => format!("t{own} isn't a term"),
    }
}

fn entry(own: usize, record: &[u8], t: u8) -> String {
    match *record {
        [kind, 0, a, b, _, _] if kind < 4 && a < t && b < t => {
            let sign = ["=", "≠", "≤", "<"][usize::from(kind)];
            format!("{own}: t{a} {sign} {}", shifted(b, c(record)))
        }
        _ => format!("{own}: not an entry"),
    }
}

fn c(record: &[u8]) -> i16 {
    i16::from_be_bytes([record[4], record[5]])
}

/// A term plus c, as "t5 - 1".
pub fn shifted(term: u8, c: i16) -> String {
    match i32::from(c) {
        0 => format!("t{term}"),
        c if c < 0 => format!("t{term} - {}", -c),
        c => format!("t{term} + {c}"),
    }
}

#[cfg(test)]
mod tests {
    use super::*;

    #[test]
    fn sheet_1_in_words() {
        let sheet = [
            [0, 48, 1, 4, 3, 0],
            [0, 0, 0, 0, 0, 0],
            [0, 0, 0, 0, 0, 0],
            [3, 7, 0, 0, 0, 0],
            [3, 7, 1, 0, 0, 0],
            [2, 0, 0, 1, 0, 0],
            [2, 0, 1, 0, 0, 0],
            [1, 0, 2, 3, 0, 0],
        ]
        .concat();
        assert_eq!(hex(&sheet)[7], "01 00 02 03 00 00");
        assert_eq!(
            words(&sheet)[1..],
            [
                "terms: t0 unknown, t1 unknown, t2 = f7(t0), t3 = f7(t1)",
                "entries: 0: t0 ≤ t1, 1: t1 ≤ t0, 2: t2 ≠ t3",
            ]
        );
    }
}
