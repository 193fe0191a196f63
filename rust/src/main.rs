//! The program `second`: one sheet from standard input and a line for it, or many sheets in frames
//! and an answer to each, or a reason. The same of texts, and of reasons from anybody.
//!
//! Rests on "When the panel sends a sheet back" for the line, and on the paper on byte forms for the
//! frames of texts and of reasons.

use second::reason::{Lapse, Reason, Step, Surveyor, Writer};
use second::text::{Reader, Slip};
use second::{reason, sheet, text, Panel, Shortcut};
use std::io::{self, BufReader, BufWriter, ErrorKind, Read, Write};
use std::process::ExitCode;

/// One more than the longest sheet, so that a sheet too long is seen to be.
const LENT: u64 = sheet::LONGEST as u64 + 1;
const LONGEST_FRAME: usize = 4096;
/// The longest text that is read from standard input, and in a frame; and a frame's largest room.
const LONGEST_TYPED: usize = 65_535;
const LONGEST_TEXT: usize = 65_536;
const LARGEST_ROOM: usize = 2048;
/// The most steps of a frame.
const MOST_STEPS: usize = 256;
const FILL: u8 = 0xAA;

fn main() -> ExitCode {
    let arguments: Vec<String> = std::env::args().skip(1).collect();
    let arguments: Vec<&str> = arguments.iter().map(String::as_str).collect();
    let done = match arguments[..] {
        [] => one_sheet(),
        ["batch"] => batch(Panel::new()),
        ["batch", name] => match Shortcut::from_name(name) {
            Some(shortcut) => batch(Panel::with(shortcut)),
            None => return usage(),
        },
        ["typed"] => one_text(),
        ["batch_text"] => batch_text(Reader::new()),
        ["batch_text", name] => match Slip::from_name(name) {
            Some(slip) => batch_text(Reader::with(slip)),
            None => return usage(),
        },
        ["batch_reason"] => batch_reason(Writer::new()),
        ["batch_reason", name] => match Lapse::from_name(name) {
            Some(lapse) => batch_reason(Writer::with(lapse)),
            None => return usage(),
        },
        ["survey"] => one_reason(),
        ["batch_survey"] => batch_survey(Surveyor::new()),
        ["batch_survey", name] => match reason::Slip::from_name(name) {
            Some(slip) => batch_survey(Surveyor::with(slip)),
            None => return usage(),
        },
        _ => return usage(),
    };
    match done {
        Ok(()) => ExitCode::SUCCESS,
        Err(error) => {
            eprintln!("second: {error}");
            ExitCode::FAILURE
        }
    }
}

fn usage() -> ExitCode {
    let shortcuts = Shortcut::ALL.map(Shortcut::name).join("|");
    let slips = Slip::ALL.map(|(_, name)| name).join("|");
    let lapses = Lapse::ALL.map(|(_, name)| name).join("|");
    let checked = reason::Slip::ALL.map(|(_, name)| name).join("|");
    eprintln!(
        "second < SHEET\nsecond batch [{shortcuts}] < FRAMES > ANSWERS\n\
         second typed < TEXT\nsecond batch_text [{slips}] < FRAMES > ANSWERS\n\
         second batch_reason [{lapses}] < FRAMES > ANSWERS\n\
         second survey < SHEET-AND-RECORD\nsecond batch_survey [{checked}] < FRAMES > ANSWERS"
    );
    ExitCode::from(2)
}

fn one_sheet() -> io::Result<()> {
    let mut lent = Vec::new();
    io::stdin().lock().take(LENT).read_to_end(&mut lent)?;
    writeln!(io::stdout(), "{}", line(&lent))
}

fn one_text() -> io::Result<()> {
    let mut text = Vec::new();
    let more = LONGEST_TYPED as u64 + 1;
    io::stdin().lock().take(more).read_to_end(&mut text)?;
    let mut room = [0; text::ROOM];
    let line = match Reader::new().read(&text, &mut room) {
        _ if text.len() > LONGEST_TYPED => format!("longer than {LONGEST_TYPED} bytes"),
        (0, length) => line(&room[..length as usize]),
        (number, place) => format!("refused {number} at {place}"),
    };
    writeln!(io::stdout(), "{line}")
}

/// A sheet, as long as it says itself, and the bytes behind it as a reason record. The sheet comes
/// first: it is sent back whatever is behind it.
fn one_reason() -> io::Result<()> {
    let mut input = Vec::new();
    io::stdin().lock().read_to_end(&mut input)?;
    let stated = match input[..] {
        [high, low, ..] => usize::from(u16::from_be_bytes([high, low])).max(2),
        _ => 0,
    };
    let (sheet, record) = input.split_at(stated.min(input.len()));
    let line = match (sheet::refusal(sheet, sheet::ROOM), Reason::by_form(record)) {
        (None, Err(_)) => String::from("no reason record"),
        (Some((number, place)), _) => format!("refused {number} at {place}"),
        (None, Ok(Reason { list, steps })) => match Surveyor::new().answer(sheet, &list, &steps) {
            (0, _) => String::from("yes"),
            (1, place) => format!("wrong at {place}"),
            (number, place) => format!("refused {number} at {place}"),
        },
    };
    writeln!(io::stdout(), "{line}")
}

/// What is said of a sheet.
fn line(lent: &[u8]) -> String {
    let mut room = [0; sheet::ROOM];
    let (number, place) = Panel::new().judge(lent, &mut room);
    match number {
        0 => String::from("holds"),
        1 => room[8..usize::from(place)]
            .iter()
            .fold(String::from("clashes"), |line, entry| {
                format!("{line} {entry}")
            }),
        _ => format!("refused {number} at {place}"),
    }
}

/// A frame is a count in two bytes and so many bytes of a sheet; the answer to it is the number,
/// the place and the whole room. It ends where no whole frame is left, or at a count too large.
fn batch(mut panel: Panel) -> io::Result<()> {
    let mut frames = BufReader::new(io::stdin().lock());
    let mut answers = BufWriter::new(io::stdout().lock());
    let mut count = [0; 2];
    let mut lent = [0; LONGEST_FRAME];
    while fill(&mut count, &mut frames, &mut answers)? {
        let length = usize::from(u16::from_be_bytes(count));
        if length > LONGEST_FRAME || !fill(&mut lent[..length], &mut frames, &mut answers)? {
            break;
        }
        let mut room = [FILL; sheet::ROOM];
        let (number, place) = panel.judge(&lent[..length], &mut room);
        answers.write_all(&[number])?;
        answers.write_all(&place.to_be_bytes())?;
        answers.write_all(&room)?;
    }
    answers.flush()
}

/// A frame is the room's size in two bytes, a count in four, and so many bytes of text; the answer
/// to it is the number, the place and the whole room. It ends as a batch of sheets does.
fn batch_text(reader: Reader) -> io::Result<()> {
    let mut frames = BufReader::new(io::stdin().lock());
    let mut answers = BufWriter::new(io::stdout().lock());
    let (mut size, mut count) = ([0; 2], [0; 4]);
    let mut text = vec![0; LONGEST_TEXT];
    while fill(&mut size, &mut frames, &mut answers)? {
        let size = usize::from(u16::from_be_bytes(size));
        if size > LARGEST_ROOM || !fill(&mut count, &mut frames, &mut answers)? {
            break;
        }
        let length = u32::from_be_bytes(count) as usize;
        if length > LONGEST_TEXT || !fill(&mut text[..length], &mut frames, &mut answers)? {
            break;
        }
        let mut room = vec![FILL; size];
        let (number, place) = reader.read(&text[..length], &mut room);
        answers.write_all(&[number])?;
        answers.write_all(&place.to_be_bytes())?;
        answers.write_all(&room)?;
    }
    answers.flush()
}

/// A frame is the room's size in four bytes, a count in two, and so many bytes of a sheet; the
/// answer to it is the number, the place, and the whole room where a reason is in it. Where none is,
/// a byte tells whether the room is as it was. It ends as a batch of sheets does.
fn batch_reason(mut writer: Writer) -> io::Result<()> {
    let mut frames = BufReader::new(io::stdin().lock());
    let mut answers = BufWriter::new(io::stdout().lock());
    let (mut size, mut count) = ([0; 4], [0; 2]);
    let mut lent = [0; LONGEST_FRAME];
    while fill(&mut size, &mut frames, &mut answers)? {
        let size = u32::from_be_bytes(size) as usize;
        if size > reason::ROOM || !fill(&mut count, &mut frames, &mut answers)? {
            break;
        }
        let length = usize::from(u16::from_be_bytes(count));
        if length > LONGEST_FRAME || !fill(&mut lent[..length], &mut frames, &mut answers)? {
            break;
        }
        let mut room = vec![FILL; size];
        let (number, place) = writer.write(&lent[..length], &mut room);
        answers.write_all(&[number])?;
        answers.write_all(&place.to_be_bytes())?;
        if number == 1 {
            answers.write_all(&room)?;
        } else {
            let untouched = room.iter().all(|&byte| byte == FILL);
            answers.write_all(&[u8::from(untouched)])?;
        }
    }
    answers.flush()
}

/// A frame is a count in two bytes and so many bytes of a sheet, a count in one byte and so many
/// entry numbers, a count in two bytes and so many steps; the answer to it is the number and the
/// place. It ends as a batch of sheets does.
fn batch_survey(surveyor: Surveyor) -> io::Result<()> {
    let mut frames = BufReader::new(io::stdin().lock());
    let mut answers = BufWriter::new(io::stdout().lock());
    loop {
        let (sheet, list, steps) = match reason_frame(&mut frames, &mut answers) {
            Err(error) if error.kind() == ErrorKind::UnexpectedEof => return answers.flush(),
            frame => frame?,
        };
        let (number, place) = surveyor.answer(&sheet, &list, &steps);
        answers.write_all(&[number])?;
        answers.write_all(&place.to_be_bytes())?;
    }
}

/// A sheet, a list and steps. A count too large is taken for the end of the input.
fn reason_frame(
    frames: &mut BufReader<impl Read>,
    answers: &mut impl Write,
) -> io::Result<(Vec<u8>, Vec<u8>, Vec<Step>)> {
    let end = || io::Error::from(ErrorKind::UnexpectedEof);
    let mut part = |length: usize| {
        let mut part = vec![0; length];
        let whole = length <= LONGEST_FRAME && fill(&mut part, frames, answers)?;
        whole.then_some(part).ok_or_else(end)
    };
    let number = |bytes: Vec<u8>| bytes.iter().fold(0, |n, &byte| n << 8 | usize::from(byte));
    let count = number(part(2)?);
    let sheet = part(count)?;
    let count = number(part(1)?);
    let list = part(count)?;
    let count = number(part(2)?);
    if count > MOST_STEPS {
        return Err(end());
    }
    let mut steps = Vec::new();
    for _ in 0..count {
        let head = part(Step::HEAD)?;
        let head = head[..].try_into().expect("a part has its length");
        steps.push(Step::from(head, &part(Step::behind(head))?));
    }
    Ok((sheet, list, steps))
}

/// Reads a part of a frame; false if the input ends first. Before it may have to wait, answers go
/// out: the other side may be waiting for those.
fn fill(
    part: &mut [u8],
    frames: &mut BufReader<impl Read>,
    answers: &mut impl Write,
) -> io::Result<bool> {
    if frames.buffer().len() < part.len() {
        answers.flush()?;
    }
    match frames.read_exact(part) {
        Err(error) if error.kind() == ErrorKind::UnexpectedEof => Ok(false),
        done => done.map(|()| true),
    }
}
