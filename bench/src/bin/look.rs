//! Times the look-up of a tie by itself: the proved one, and one in Rust, on the same tables and the
//! same pairs of points.
//!
//!     look    a line for each number of terms: nanoseconds of 4,096 look-ups by each (- for one that isn't built in)

use bench::timing::{side_by_side, Side};
use bench::SIZES;
use second::random::Random;
use second::sheet::MOST;

/// A table has room for the most terms and the zero level, whatever the sheet.
const STRIDE: usize = MOST + 1;

const ZERO: u32 = 1 << 30;
const NONE: u32 = 1 << 31;

const LOOKS: usize = 4096;

fn main() {
    for &size in &SIZES {
        let table = table(size);
        let pairs = pairs(size);
        let right = LOOKS as u16 / 2;
        let name = format!("look-up {size} looks");
        let rust = || ties(&pairs, |a, b| tied(&table, a, b) == ZERO);
        side_by_side(&name, [proved(&table, &pairs), Some(Box::new(rust))], right);
    }
}

/// A closed table of so many terms and the zero level, each four of them tied at 0.
fn table(size: usize) -> Vec<u32> {
    let mut table = vec![NONE; STRIDE * STRIDE];
    for a in 0..=size {
        for b in 0..=size {
            if a / 4 == b / 4 {
                table[a * STRIDE + b] = ZERO;
            }
        }
    }
    table
}

/// Pairs of its terms: one that is tied, then one that isn't.
fn pairs(size: usize) -> Vec<(usize, usize)> {
    let random = &mut Random::of(4, "look", size as u64);
    let mut pair = |at| {
        let (a, b) = (random.below(size), random.below(size));
        let tied = a / 4 * 4 + b % 4;
        (a, if at % 2 == 0 { tied } else { (tied + 4) % size })
    };
    (0..LOOKS).map(&mut pair).collect()
}

fn ties(pairs: &[(usize, usize)], tied: impl Fn(usize, usize) -> bool) -> u16 {
    pairs.iter().filter(|(a, b)| tied(*a, *b)).count() as u16
}

/// The gap at which a is tied to b. The proved one isn't inlined either.
#[inline(never)]
fn tied(table: &[u32], a: usize, b: usize) -> u32 {
    let to = table[a * STRIDE + b];
    let back = table[b * STRIDE + a];
    // both tests, so that no branch is guessed wrong
    if (to % 2 == 0) & (u64::from(to) + u64::from(back) == 2 * u64::from(ZERO)) {
        to
    } else {
        NONE
    }
}

#[cfg(feature = "panel")]
fn proved<'a>(table: &'a [u32], pairs: &'a [(usize, usize)]) -> Side<'a> {
    // for the folder that its archive stands in
    use baruvkesh as _;

    #[link(name = "lookup", kind = "static")]
    extern "C" {
        fn baruvkesh_tied(table: *const u32, length: usize, a: usize, b: usize) -> u32;
    }
    // SAFETY: the archive reads within the slice that it is lent, for any two numbers
    let tied = |a, b| unsafe { baruvkesh_tied(table.as_ptr(), table.len(), a, b) == ZERO };
    Some(Box::new(move || ties(pairs, tied)))
}

#[cfg(not(feature = "panel"))]
fn proved<'a>(_: &'a [u32], _: &'a [(usize, usize)]) -> Side<'a> {
    None
}
