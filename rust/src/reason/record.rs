//! The reason record, byte by byte.
//!
//! Rests on "Request 4: the reason record" of the paper on byte forms. That says which bytes are a
//! record; whether the steps are right is another question.

use super::step::{Step, BOUND};
use crate::sheet::MOST;

const HEAD: usize = 10;
const VERSION: u8 = 1;

/// The room that is always enough: the head, as many entries as there may be, and for each point a
/// step of two walks with a bound for each point.
pub const ROOM: usize = HEAD + MOST + (MOST + 1) * (Step::HEAD + 2 * BOUND * (MOST + 1));

/// A list of entries, and the steps that show that they clash.
#[derive(Clone, Debug, PartialEq, Eq)]
pub struct Reason {
    /// The entries, rising.
    pub list: Vec<u8>,
    /// The steps.
    pub steps: Vec<Step>,
}

impl Reason {
    /// How many groups are lost to ties.
    pub fn ties(&self) -> usize {
        self.steps.iter().filter(|step| step.ties()).count()
    }

    /// The record.
    pub fn bytes(&self) -> Vec<u8> {
        let mut bytes = vec![0, 0, 0, 0, VERSION, self.ties() as u8];
        bytes.extend((self.list.len() as u16).to_be_bytes());
        bytes.extend((self.steps.len() as u16).to_be_bytes());
        bytes.extend(&self.list);
        for step in &self.steps {
            bytes.extend(step.bytes());
        }
        let length = bytes.len() as u32;
        bytes[..4].copy_from_slice(&length.to_be_bytes());
        bytes
    }

    /// Reads a record; or says what is wrong with bytes that are none.
    pub fn from(record: &[u8]) -> Result<Reason, String> {
        let reason = Reason::by_form(record)?;
        not_a_list(&reason.list).map_or(Ok(reason), Err)
    }

    /// The same of a record from anybody, whose list may be any numbers: that is for the check to
    /// say.
    pub fn by_form(record: &[u8]) -> Result<Reason, String> {
        let mut rest = Rest { record, at: 0 };
        let stated = rest.number(4, "its length")?;
        if stated != record.len() as u64 {
            return Err(format!("{} bytes, and {stated} stated", record.len()));
        }
        let version = rest.byte("byte 4")?;
        if version != VERSION {
            return Err(format!("byte 4 is {version}, not {VERSION}"));
        }
        let lost = rest.byte("byte 5")?;
        let k = rest.number(2, "k")? as usize;
        let count = rest.number(2, "the number of steps")? as usize;
        let list = rest.part(k, "the clash list")?.to_vec();
        let mut steps = Vec::new();
        for own in 0..count {
            steps.push(rest.step(&format!("step {own}"))?);
        }
        if rest.at != record.len() {
            let left = record.len() - rest.at;
            return Err(format!("{left} bytes behind the last step"));
        }
        let reason = Reason { list, steps };
        match reason.ties() {
            ties if ties == usize::from(lost) => Ok(reason),
            ties => Err(format!("byte 5 is {lost}, and there are {ties} tie steps")),
        }
    }
}

/// What is wrong with a list that the answer record couldn't have for any sheet.
fn not_a_list(list: &[u8]) -> Option<String> {
    if list.is_empty() {
        return Some(String::from("k is 0"));
    }
    if let Some(at) = list.windows(2).position(|two| two[0] >= two[1]) {
        let (one, next) = (list[at], list[at + 1]);
        return Some(format!("the clash list has {next} behind {one}"));
    }
    let beyond = list.iter().find(|&&entry| usize::from(entry) >= MOST);
    beyond.map(|entry| format!("the clash list has entry {entry}, not below {MOST}"))
}

/// What is left of a record.
struct Rest<'a> {
    record: &'a [u8],
    at: usize,
}

impl<'a> Rest<'a> {
    fn part(&mut self, length: usize, what: &str) -> Result<&'a [u8], String> {
        match self.record.get(self.at..self.at + length) {
            Some(part) => {
                self.at += length;
                Ok(part)
            }
            None => Err(format!("it ends at {}, within {what}", self.record.len())),
        }
    }

    fn byte(&mut self, what: &str) -> Result<u8, String> {
        self.part(1, what).map(|part| part[0])
    }

    fn number(&mut self, width: usize, what: &str) -> Result<u64, String> {
        let part = self.part(width, what)?;
        Ok(part.iter().fold(0, |n, &byte| n << 8 | u64::from(byte)))
    }

    fn step(&mut self, what: &str) -> Result<Step, String> {
        let head = self.part(Step::HEAD, what)?;
        let head = head.try_into().expect("a part has its length");
        Ok(Step::from(head, self.part(Step::behind(head), what)?))
    }
}
