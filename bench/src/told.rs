//! The independent check of reasons, asked as the proved one is: all in bytes.

use second::reason::{survey, Step};
use second::sheet::{refusal, ROOM};

/// There is no step of this kind.
const TORN: u8 = 255;

/// The number and the place of the answer.
pub fn answer(sheet: &[u8], list: &[u8], bytes: &[u8]) -> (u8, u32) {
    if let Some((number, place)) = refusal(sheet, ROOM) {
        return (number, place.into());
    }
    let entries = sheet[4];
    if list.windows(2).any(|two| two[0] >= two[1]) || list.iter().any(|&entry| entry >= entries) {
        return (27, 0);
    }
    match survey(sheet, list, &steps(bytes)) {
        Ok(()) => (0, 0),
        Err(wrong) => (1, wrong.step as u32),
    }
}

/// The steps that bytes tell; one whose bytes end before it does is of a kind that there isn't.
pub fn steps(mut bytes: &[u8]) -> Vec<Step> {
    let mut steps = Vec::new();
    while !bytes.is_empty() {
        let (step, rest) = first(bytes).unwrap_or_else(|| (torn(), &[]));
        steps.push(step);
        bytes = rest;
    }
    steps
}

fn first(bytes: &[u8]) -> Option<(Step, &[u8])> {
    let (head, behind) = (bytes.get(..Step::HEAD)?, &bytes[Step::HEAD..]);
    let head = head.try_into().expect("so many bytes");
    let bounds = behind.get(..Step::behind(head))?;
    Some((Step::from(head, bounds), &behind[bounds.len()..]))
}

fn torn() -> Step {
    Step {
        kind: TORN,
        ..Step::unequal(0)
    }
}
