//! The writer: a number and a place for every sheet and room, and the reason record.
//!
//! Rests on request 4 of document 02, and on the paper on byte forms.

use super::finder::find;
use super::lapse::Lapse;
use super::record::{Reason, ROOM};
use crate::panel::Panel;
use crate::sheet;
use crate::shortcut::Shortcut;

const HOLDS: u8 = 0;
/// Where the list of an answer record begins.
const LIST: usize = 8;

const WRITTEN: u8 = 1;
const TOO_SMALL: (u8, u32) = (25, 0);
const SHEET_HOLDS: (u8, u32) = (26, 0);

/// The work space of a writer, made once for any number of sheets.
pub struct Writer {
    panel: Panel,
    lapse: Option<Lapse>,
}

impl Default for Writer {
    fn default() -> Writer {
        Writer::new()
    }
}

impl Writer {
    /// An honest writer.
    pub fn new() -> Writer {
        let (panel, lapse) = (Panel::new(), None);
        Writer { panel, lapse }
    }

    /// A writer with a lapse.
    pub fn with(lapse: Lapse) -> Writer {
        let panel = match lapse {
            Lapse::Fewest => Panel::with(Shortcut::Fewest),
            Lapse::MetLast | Lapse::OtherC => Panel::with(Shortcut::MetLast),
            _ => Panel::new(),
        };
        let lapse = Some(lapse);
        Writer { panel, lapse }
    }

    /// Answers a number and a place. With 1 the reason record fills the first bytes of the room, as
    /// many as the place says. Everything else in the room stays.
    pub fn write(&mut self, sheet: &[u8], room: &mut [u8]) -> (u8, u32) {
        if self.lapse == Some(Lapse::Writes) {
            room.iter_mut().take(1).for_each(|byte| *byte = 0);
        }
        let answer_room = match self.lapse {
            Some(Lapse::AnswerRoom) => room.len(),
            _ => sheet::ROOM,
        };
        if let Some((number, place)) = sheet::refusal(sheet, answer_room) {
            return (number, place.into());
        }
        let small = self.is_small(room);
        if small && self.lapse == Some(Lapse::RoomFirst) {
            return TOO_SMALL;
        }
        let mut answer = [0; sheet::ROOM];
        let (verdict, length) = self.panel.judge(sheet, &mut answer);
        let answer = &answer[..usize::from(length)];
        if verdict == HOLDS {
            return self.holds(answer, room);
        }
        if small && !matches!(self.lapse, Some(Lapse::Early | Lapse::RoomFits)) {
            return TOO_SMALL;
        }
        let record = self.record(sheet, &answer[LIST..]);
        self.put(&record, small, room)
    }

    fn is_small(&self, room: &[u8]) -> bool {
        room.len()
            < match self.lapse {
                Some(Lapse::RoomUnder) => ROOM - 1,
                Some(Lapse::RoomOver) => ROOM + 1,
                _ => ROOM,
            }
    }

    fn holds(&self, answer: &[u8], room: &mut [u8]) -> (u8, u32) {
        if self.lapse == Some(Lapse::Values) {
            let fitting = answer.len().min(room.len());
            room[..fitting].copy_from_slice(&answer[..fitting]);
        }
        match self.lapse {
            Some(Lapse::HoldsAt) => (SHEET_HOLDS.0, answer.len() as u32),
            _ => SHEET_HOLDS,
        }
    }

    fn record(&self, sheet: &[u8], list: &[u8]) -> Vec<u8> {
        let found = find(sheet, list, self.lapse);
        // What a lapse ties by mistake may be in the way of every closing step.
        let steps = found.or_else(|| find(sheet, list, None));
        let steps = steps.expect("the list clashes");
        let list = list.to_vec();
        let mut reason = Reason { list, steps };
        let lapse = match self.lapse {
            None => return reason.bytes(),
            Some(lapse) => lapse,
        };
        lapse.spoil(&mut reason);
        let mut record = reason.bytes();
        lapse.spoil_record(&mut record);
        record
    }

    fn put(&self, record: &[u8], small: bool, room: &mut [u8]) -> (u8, u32) {
        let fitting = record.len().min(room.len());
        room[..fitting].copy_from_slice(&record[..fitting]);
        if small && (self.lapse == Some(Lapse::Early) || fitting < record.len()) {
            return TOO_SMALL;
        }
        match self.lapse {
            Some(Lapse::Clears) => room[fitting..].fill(0),
            Some(Lapse::LongPlace) => return (WRITTEN, record.len() as u32 + 1),
            _ => {}
        }
        (WRITTEN, record.len() as u32)
    }
}
