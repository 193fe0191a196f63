//! The families of random sheets. Each is a recipe for a place where a panel could go wrong.

use super::judged;
use super::reasons;
use super::sheet::Sheet;
use super::wrong;
use super::Random;

pub struct Family {
    pub name: &'static str,
    pub about: &'static str,
    make: fn(&mut Random) -> Vec<u8>,
}

impl Family {
    /// The bytes of one sheet of the family, always the same ones.
    pub fn sheet(&self, seed: u64, number: u64) -> Vec<u8> {
        (self.make)(&mut Random::of(seed, self.name, number))
    }
}

/// A sheet by a recipe, its terms and entries in any order. One in eight is large, and half of
/// those are filled up to the limits.
fn made(random: &mut Random, recipe: fn(&mut Random, bool) -> Sheet) -> Vec<u8> {
    let large = random.one_in(8);
    let mut sheet = recipe(random, large);
    if large && random.coin() {
        judged::fill(random, &mut sheet);
    }
    sheet.shuffled(random).bytes()
}

pub const FAMILIES: [Family; 14] = [
    Family {
        name: "chains",
        about: "cycles of bounds one step short of a clash, and one step over",
        make: |random| made(random, judged::chains),
    },
    Family {
        name: "dense",
        about: "many bounds on few unknowns",
        make: |random| made(random, judged::dense),
    },
    Family {
        name: "towers",
        about: "functions of functions over terms that are tied, or aren't",
        make: |random| made(random, judged::towers),
    },
    Family {
        name: "rounds",
        about: "ties that need both halves in turn, several times",
        make: |random| made(random, judged::rounds),
    },
    Family {
        name: "equalities",
        about: "terms tied by two bounds, shifts and numbers",
        make: |random| made(random, judged::equalities),
    },
    Family {
        name: "unequal",
        about: "many entries with ≠",
        make: |random| made(random, judged::unequal),
    },
    Family {
        name: "strict",
        about: "many entries with <",
        make: |random| made(random, judged::strict),
    },
    Family {
        name: "extremes",
        about: "c at both ends of its range",
        make: |random| made(random, judged::extremes),
    },
    Family {
        name: "same",
        about: "entries that stand twice, and terms compared with themselves",
        make: |random| made(random, judged::same),
    },
    Family {
        name: "overlapping",
        about: "several clashes with entries in common",
        make: |random| made(random, judged::overlapping),
    },
    Family {
        name: "largest",
        about: "as many terms, entries or both as a sheet can have",
        make: |random| judged::largest(random).shuffled(random).bytes(),
    },
    Family {
        name: "mix",
        about: "a little of everything",
        make: |random| made(random, judged::mix),
    },
    Family {
        name: "fields",
        about: "a field of the head or of a record that is wrong, or just right",
        make: wrong::fields,
    },
    Family {
        name: "bytes",
        about: "sheets that are cut or lengthened, and bytes that never were a sheet",
        make: wrong::bytes,
    },
];

/// More families, for writers of reasons: what is hard there is easy to judge.
pub const FOR_REASONS: [Family; 3] = [
    Family {
        name: "walls",
        about: "applications that bounds tie at one gap and equal arguments at another",
        make: |random| made(random, reasons::walls),
    },
    Family {
        name: "rings",
        about: "cycles over every point and the zero level",
        make: |random| made(random, reasons::rings),
    },
    Family {
        name: "apart",
        about: "terms tied at all gaps, and entries that know them",
        make: |random| made(random, reasons::apart),
    },
];

#[cfg(test)]
mod tests {
    use super::*;
    use crate::sheet::{refusal, MOST, ROOM};
    use crate::Panel;

    fn named(name: &str) -> &'static Family {
        FAMILIES
            .iter()
            .find(|family| family.name == name)
            .expect("a family of this name")
    }

    #[test]
    fn a_sheet_rests_on_seed_family_and_number() {
        let sheet = named("mix").sheet(1, 2);
        assert_eq!(sheet, named("mix").sheet(1, 2));
        assert_ne!(sheet, named("mix").sheet(1, 3));
        assert_ne!(sheet, named("mix").sheet(2, 2));
        assert_ne!(sheet, named("fields").sheet(1, 2));
    }

    #[test]
    fn judged_families_are_judged_and_about_half_of_each_holds() {
        let mut panel = Panel::new();
        for family in &FAMILIES[..12] {
            let hold = (0..1000).filter(|&number| {
                let (verdict, _) = panel.judge(&family.sheet(5, number), &mut [0; ROOM]);
                assert!(verdict <= 1, "{} {number} is refused", family.name);
                verdict == 0
            });
            let hold = hold.count();
            assert!(
                (300..=700).contains(&hold),
                "{hold} in 1000 of {} hold",
                family.name
            );
        }
    }

    #[test]
    fn most_sheets_are_small_and_each_family_has_large_ones_and_the_largest() {
        for family in &FAMILIES[..12] {
            let sheets = (0..1000).map(|number| family.sheet(5, number));
            let sizes: Vec<[usize; 2]> = sheets
                .map(|sheet| [sheet[3].into(), sheet[4].into()])
                .collect();
            let share = |of: fn(&[usize; 2]) -> bool| sizes.iter().filter(|size| of(size)).count();
            let shares = [
                share(|size| size.iter().all(|&size| size < MOST / 2)),
                share(|size| size.iter().any(|size| (MOST / 2..MOST).contains(size))),
                share(|size| size[0] == MOST),
                share(|size| size[1] == MOST),
            ];
            let few = match family.name {
                "largest" => 0,
                _ => 850,
            };
            assert!(
                shares[0] > few && shares[1..].iter().all(|&share| share > 20),
                "{shares:?} in 1000 of {}",
                family.name
            );
        }
    }

    #[test]
    fn wrong_families_have_every_refusal_that_a_frame_can_have_and_fit_in_it() {
        for family in &FAMILIES[12..] {
            let sheets: Vec<Vec<u8>> = (0..1000).map(|number| family.sheet(5, number)).collect();
            assert!(sheets.iter().all(|sheet| sheet.len() <= 4096));
            let refusals = sheets.iter().map(|sheet| refusal(sheet, ROOM));
            let numbers: Vec<u8> = refusals
                .map(|refusal| refusal.map_or(0, |(number, _)| number))
                .collect();
            for number in [0, 10, 11, 12, 13, 14] {
                assert!(numbers.contains(&number), "no {number} in {}", family.name);
            }
        }
    }
}
