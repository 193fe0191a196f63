//! The recipes for sheets that are sent back, and for those that only just aren't.

use super::judged::{any, mix};
use super::sheet::state_length;
use super::Random;
use crate::sheet::{LONGEST, MOST};

// The bytes of the head, and of a record.
const SIX: usize = 6;

/// Finds a field that isn't looked at, a limit that is one off, and a place that isn't the lowest.
pub fn fields(random: &mut Random) -> Vec<u8> {
    if random.one_in(8) {
        return sizes(random);
    }
    // A panel may go wrong in late records only, so some sheets have many.
    let sheet = if random.one_in(3) {
        let [terms, entries] = [(); 2].map(|_| random.pick(&[MOST, MOST, MOST - 1, MOST / 2]));
        any(random, terms, entries)
    } else {
        mix(random, false)
    };
    let (terms, entries) = (sheet.terms.len(), sheet.entries.len());
    let mut bytes = sheet.bytes();
    for _ in 0..random.pick(&[1, 1, 1, 2, 2, 3]) {
        match random.below(8) {
            0 => head_field(random, &mut bytes),
            1 => one_counted_among_the_others(random, &mut bytes),
            2..=4 if entries > 0 => {
                let at = SIX + SIX * (terms + random.below(entries));
                field(random, &mut bytes[at..at + SIX], terms as u8);
            }
            _ => {
                let own = random.below(terms);
                let record = &mut bytes[SIX + SIX * own..][..SIX];
                record.copy_from_slice(&any_term(random, own));
                field(random, record, own as u8);
            }
        }
    }
    bytes
}

/// T and L at their limits, over them and halfway, with as many records, all zero.
fn sizes(random: &mut Random) -> Vec<u8> {
    let close = [0, 1, MOST / 2, MOST / 2 + 1, MOST - 1, MOST, MOST + 1, 255];
    let [terms, entries] = [(); 2].map(|_| random.pick(&close));
    let mut bytes = vec![0, 0, 1, terms as u8, entries as u8, 0];
    bytes.resize(SIX + SIX * (terms + entries), 0);
    state_length(&mut bytes);
    bytes
}

fn head_field(random: &mut Random, bytes: &mut [u8]) {
    let at = random.below(SIX);
    bytes[at] = match random.below(3) {
        0 => bytes[at].wrapping_sub(1),
        1 => bytes[at].wrapping_add(1),
        _ => bytes[at] ^ 0x80,
    };
}

fn one_counted_among_the_others(random: &mut Random, bytes: &mut [u8]) {
    let (more, fewer) = random.pick(&[(3, 4), (4, 3)]);
    bytes[more] = bytes[more].wrapping_add(1);
    bytes[fewer] = bytes[fewer].wrapping_sub(1);
}

/// A right term, its kind any one: each field of each kind is to have its turn at being wrong.
fn any_term(random: &mut Random, own: usize) -> [u8; SIX] {
    let kind = random.below(if own == 0 { 2 } else { 5 });
    let mut argument = || random.below(own) as u8;
    match kind {
        0 => [0, 0, 0, 0, 0, 0],
        1 => [1, 0, 0, 0, 0, 9],
        2 => [2, 0, argument(), 0, 0, 9],
        3 => [3, 7, argument(), 0, 0, 0],
        _ => [4, 7, argument(), argument(), 0, 0],
    }
}

/// A field at an edge of what may be right. Arguments of a term must lie below its own number,
/// sides of an entry below T.
fn field(random: &mut Random, record: &mut [u8], above: u8) {
    let at = random.below(SIX);
    record[at] = match at {
        0 => random.pick(&[3, 4, 5, 5, 255]),
        2 | 3 => random.pick(&[above.saturating_sub(1), above, above, above + 1, 255]),
        _ => random.pick(&[0, 1, 128, 255]),
    };
}

/// Finds reads past the end, and bytes that are taken for a sheet.
pub fn bytes(random: &mut Random) -> Vec<u8> {
    let large = random.one_in(8);
    let mut bytes = mix(random, large).bytes();
    match random.below(5) {
        0 => bytes.truncate(random.below(bytes.len())),
        1 => {
            let more = random.pick(&[1, SIX, 2 * SIX, LONGEST]);
            bytes.resize(bytes.len() + more, random.pick(&[0, 1, 0xAA]));
        }
        2 => {
            let at = random.below(bytes.len());
            bytes[at] ^= 1 << random.below(8);
        }
        3 => {
            let most = random.pick(&[8, 100, LONGEST + SIX, LONGEST + SIX, 4096]);
            bytes = (0..random.count(0..=most))
                .map(|_| random.below(256) as u8)
                .collect();
        }
        _ => {
            let (terms, entries) = (random.count(1..=4), random.count(0..=4));
            bytes = vec![0, 0, 1, terms as u8, entries as u8, 0];
            let records = SIX * (terms + entries);
            bytes.extend((0..records).map(|_| random.pick(&[0, 0, 0, 0, 0, 1, 2, 3])));
        }
    }
    if bytes.len() >= 2 && random.coin() {
        state_length(&mut bytes);
    }
    bytes
}

#[cfg(test)]
mod tests {
    use super::*;
    use crate::sheet::{refusal, ROOM};

    #[test]
    fn late_records_are_wrong_too() {
        let refusals: Vec<(u8, u16)> = (0..600)
            .filter_map(|number| refusal(&fields(&mut Random::of(5, "fields", number)), ROOM))
            .collect();
        for wrong in [13, 14] {
            let late =
                |&(number, place): &(u8, u16)| number == wrong && usize::from(place) > 3 * MOST / 4;
            assert!(refusals.iter().any(late), "no late {wrong}");
        }
    }
}
