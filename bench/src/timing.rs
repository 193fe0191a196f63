//! Times of calls, turn by turn.

use std::time::{Duration, Instant};

/// One side: a call of it gives the place.
pub type Side<'a> = Option<Box<dyn FnMut() -> u16 + 'a>>;

/// Prints the least time of a call of each over many turns, which go from one side to the next.
pub fn side_by_side<const SIDES: usize>(name: &str, mut sides: [Side; SIDES], place: u16) {
    let mut least = [u64::MAX; SIDES];
    for _ in 0..15 {
        for (side, least) in sides.iter_mut().zip(&mut least) {
            if let Some(call) = side {
                *least = per_call(call, place).min(*least);
            }
        }
    }
    let times = sides.iter().zip(least).map(|(side, least)| match side {
        Some(_) => format!("\t{least}"),
        None => "\t-".to_string(),
    });
    println!("{name}{}", times.collect::<String>());
}

/// Nanoseconds of a call, over as many as take a few milliseconds. The places are added up and
/// checked, so that no call can be left out.
fn per_call(call: &mut dyn FnMut() -> u16, place: u16) -> u64 {
    let start = Instant::now();
    let (mut calls, mut places) = (0, 0);
    // looking at the clock takes time too, and a slow call is enough by itself
    let mut turn = 1;
    while start.elapsed() < Duration::from_millis(4) {
        for _ in 0..turn {
            places += u64::from(call());
        }
        calls += turn;
        turn = 16.min(2 * turn);
    }
    let time = start.elapsed();
    assert_eq!(
        places,
        calls * u64::from(place),
        "a call answered differently"
    );
    time.as_nanos() as u64 / calls
}
