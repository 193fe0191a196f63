//! The surveyor: a number and a place for every sheet, list and reason.
//!
//! Rests on request 5 of document 02, and on the paper on byte forms.

use super::slip::Slip;
use super::step::Step;
use super::survey::check;
use crate::sheet;

const YES: (u8, u32) = (0, 0);
const WRONG: u8 = 1;
const NO_LIST: u8 = 27;

/// Answers for whoever sends a sheet, a list of entries and a reason.
#[derive(Clone, Copy, Default)]
pub struct Surveyor {
    slip: Option<Slip>,
}

impl Surveyor {
    /// An honest surveyor.
    pub fn new() -> Surveyor {
        Surveyor::default()
    }

    /// A surveyor who makes a slip.
    pub fn with(slip: Slip) -> Surveyor {
        let slip = Some(slip);
        Surveyor { slip }
    }

    /// The sheet's own refusal, 27 for a list that is none, 0 for a yes, or 1 with the number of the
    /// first wrong step.
    pub fn answer(&self, sheet: &[u8], list: &[u8], steps: &[Step]) -> (u8, u32) {
        let refusal = sheet::refusal(sheet, sheet::ROOM);
        let refusal = refusal.map(|(number, place)| (number, place.into()));
        let no_list = || self.no_list(list, sheet.get(4).copied().unwrap_or(0));
        let sent_back = match self.slip {
            Some(Slip::ListFirst) => no_list().or(refusal),
            _ => refusal.or_else(no_list),
        };
        sent_back.unwrap_or_else(|| self.checked(sheet, list, steps))
    }

    fn no_list(&self, list: &[u8], entries: u8) -> Option<(u8, u32)> {
        let rises = |two: &[u8]| match self.slip {
            Some(Slip::Level) => two[0] <= two[1],
            Some(Slip::Falling) => true,
            _ => two[0] < two[1],
        };
        let below = |entry: u8| entry < entries || entry == entries && self.slip == Some(Slip::AtL);
        let wrong = |at: usize| !below(list[at]) || at > 0 && !rises(&list[at - 1..]);
        let place = match self.slip {
            Some(Slip::EmptyRefused) if list.is_empty() => Some(0),
            _ => (0..list.len()).find(|&at| wrong(at)),
        };
        place.map(|place| match self.slip {
            Some(Slip::ListPlace) => (NO_LIST, place as u32),
            _ => (NO_LIST, 0),
        })
    }

    fn checked(&self, sheet: &[u8], list: &[u8], steps: &[Step]) -> (u8, u32) {
        let mut read = steps.to_vec();
        if let Some(slip) = self.slip {
            slip.misread(&mut read);
        }
        let count = steps.len();
        let place = match check(sheet, list, &read, self.slip) {
            Ok(()) if self.slip == Some(Slip::YesPlace) => return (YES.0, count as u32),
            Ok(()) => return YES,
            Err(wrong) => wrong.step,
        };
        let goes_on = place + 1 < count && steps[place].closes();
        let place = match self.slip {
            Some(Slip::Unclosed) if place == count => return YES,
            Some(Slip::LastOfNone) if place == count => place.saturating_sub(1),
            Some(Slip::BlamesNext) if goes_on => place + 1,
            Some(Slip::BlamesLast) if place < count => count - 1,
            Some(Slip::FromOne) => place + 1,
            _ => place,
        };
        (WRONG, place as u32)
    }
}
