//! The panel: a number and a place for every sheet, and the answer record.
//!
//! Rests on "The answer record" and "When the panel sends a sheet back".

use crate::entries::Set;
use crate::sheet::{self, MOST};
use crate::shortcut::Shortcut;
use crate::verdict::Judge;

const HOLDS: u8 = 0;
const CLASHES: u8 = 1;
const HEAD: usize = 8;

/// The work space of a panel, made once for any number of sheets.
pub struct Panel {
    judge: Judge,
    shortcut: Option<Shortcut>,
}

impl Default for Panel {
    fn default() -> Panel {
        Panel::new()
    }
}

impl Panel {
    /// An honest panel.
    pub fn new() -> Panel {
        Panel {
            judge: Judge::new(None),
            shortcut: None,
        }
    }

    /// A panel that takes a shortcut.
    pub fn with(shortcut: Shortcut) -> Panel {
        Panel {
            judge: Judge::new(Some(shortcut)),
            shortcut: Some(shortcut),
        }
    }

    /// Judges a sheet and answers a number and a place. With 0 or 1 the answer record fills the
    /// first bytes of the room, as many as the place says. Everything else in the room stays.
    pub fn judge(&mut self, sheet: &[u8], room: &mut [u8]) -> (u8, u16) {
        self.judge.clear();
        let refusal = sheet::read(
            sheet,
            room.len(),
            &mut self.judge,
            Judge::term,
            Judge::entry,
        );
        if let Some(refusal) = refusal {
            return refusal;
        }
        let entries = usize::from(sheet[4]);
        let all = first(entries);
        if !self.judge.clashes(&all, true) {
            let (denominator, values) = self.judge.values();
            let bytes = values.map(i64::to_be_bytes);
            return (HOLDS, write(room, HOLDS, denominator, bytes));
        }
        let list = match self.shortcut {
            Some(Shortcut::Fewest) => self.fewest(entries),
            Some(Shortcut::MetLast) => self.met_last(entries),
            _ => self.first_list(entries),
        };
        let bytes = (0..entries)
            .filter(|&entry| list[entry])
            .map(|entry| [entry as u8]);
        (CLASHES, write(room, CLASHES, count(&list), bytes))
    }

    /// The first list that clashes: of two lists, the one without the highest entry that only one
    /// of them has.
    ///
    /// More entries never undo a clash. So with the choice made for all higher entries, some list
    /// without this one clashes exactly when the list of all the rest does.
    fn first_list(&mut self, entries: usize) -> Set {
        let mut list = first(entries);
        for entry in (0..entries).rev() {
            list[entry] = false;
            list[entry] = !self.judge.clashes(&list, false);
        }
        list
    }

    /// The first among the lists with the fewest entries, if they are one or two.
    fn fewest(&mut self, entries: usize) -> Set {
        let honest = self.first_list(entries);
        (1..count(&honest).min(3))
            .find_map(|few| self.first_of(few, first(0), entries))
            .unwrap_or(honest)
    }

    /// The first clashing list that adds so many entries, each below some number, to a list.
    fn first_of(&mut self, few: u16, list: Set, below: usize) -> Option<Set> {
        if few == 0 {
            return self.judge.clashes(&list, false).then_some(list);
        }
        (0..below).find_map(|entry| {
            let mut more = list;
            more[entry] = true;
            self.first_of(few - 1, more, entry)
        })
    }

    /// Every entry up to the one that brought the clash.
    fn met_last(&mut self, entries: usize) -> Set {
        (1..entries)
            .map(first)
            .find(|set| self.judge.clashes(set, false))
            .unwrap_or(first(entries))
    }
}

/// The set of the first so many entries.
fn first(entries: usize) -> Set {
    let mut set = [false; MOST];
    set[..entries].fill(true);
    set
}

/// How many entries a set has.
fn count(set: &Set) -> u16 {
    set.iter().map(|&member| u16::from(member)).sum()
}

/// Writes an answer record and answers its length.
fn write<const W: usize>(
    room: &mut [u8],
    number: u8,
    count: u16,
    body: impl Iterator<Item = [u8; W]>,
) -> u16 {
    let mut length = HEAD;
    for (part, bytes) in room[HEAD..].chunks_exact_mut(W).zip(body) {
        part.copy_from_slice(&bytes);
        length += W;
    }
    room[0..2].copy_from_slice(&(length as u16).to_be_bytes());
    room[2..4].copy_from_slice(&[1, number]);
    room[4..6].copy_from_slice(&count.to_be_bytes());
    room[6..8].copy_from_slice(&[0, 0]);
    length as u16
}
