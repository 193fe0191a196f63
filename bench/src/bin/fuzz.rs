//! Feeds the proved panel, the proved reader of texts, the proved writer of reasons and the proved
//! check of them random, damaged and good input for a number of seconds, a quarter of them each.
//!
//!     fuzz SECONDS [SEED [FILE]]
//!     fuzz show NUMBER SEED          one input: sheets and steps in hex and in words, a text by its lines
//!
//! All input lies in memory that can't be written, and each part of it and the room end where a page
//! that can't be touched begins. So a read or write past the end of one, and any write to the input,
//! stops the program; the file then has the number of the input, in eight bytes. Bytes before the
//! room (back to its page's start) and past what is written are compared afterwards. A read before
//! an input or the room isn't noticed.
//!
//! Number, place and list are held to the independent panel's, and values to what they mean; of a
//! text number, place and every byte of the room to the independent reader's; a reason to the
//! independent check, and the proved check to the same. A call that isn't back within a minute is
//! reported with its input. It fails too if it tried nothing, or if in twenty seconds or more there
//! was no answer of one of the kinds that are counted.

use bench::told;
use second::random::families::{Family, FAMILIES, FOR_REASONS};
use second::random::sheet::state_length;
use second::random::surveys::SURVEYS;
use second::random::texts::{LONGEST, TEXTS};
use second::random::words::{hex, words};
use second::random::Random;
use second::reason::{needless, Reason, Step, ROOM as REASON_ROOM};
use second::sheet::{MOST, ROOM};
use second::text::{Reader, ROOM as SHEET_ROOM};
use second::{meaning, Panel};
use std::ffi::c_void;
use std::fs::OpenOptions;
use std::os::raw::{c_char, c_int, c_long};
use std::os::unix::io::AsRawFd;
use std::process::exit;
use std::sync::atomic::{AtomicU64, Ordering::Relaxed};
use std::time::{Duration, Instant};
use std::{env, ptr, slice, thread};

const PAGE: usize = 4096;
const UNTOUCHED: u8 = 0xAA;
const PATIENCE: Duration = Duration::from_secs(60);
/// From how many seconds on there must be answers of each kind.
const LONG: u64 = 20;

fn main() {
    let args: Vec<String> = env::args().skip(1).collect();
    let args: Vec<&str> = args.iter().map(String::as_str).collect();
    let (seconds, seed, file) = match args[..] {
        ["show", number, seed] => {
            show(whole(seed), whole(number), "");
            return;
        }
        [seconds] => (whole(seconds), 1, None),
        [seconds, seed] => (whole(seconds), whole(seed), None),
        [seconds, seed, file] => (whole(seconds), whole(seed), Some(file)),
        _ => usage(),
    };
    let asked = kept(file);
    watch(seed, asked);
    let start = Instant::now();
    let mut tried = Tried::new();
    let mut counts = Counts::default();
    // The kinds of input take turns with their numbers. The one with the least time so far is next.
    let mut next: Vec<u64> = (0..KINDS).collect();
    let mut spent = vec![Duration::ZERO; next.len()];
    while start.elapsed().as_secs() < seconds {
        let kind = (0..spent.len()).min_by_key(|&kind| spent[kind]).unwrap();
        let (number, began) = (next[kind], Instant::now());
        asked.store(number, Relaxed);
        if let Err(fault) = tried.try_one(&input(seed, number), &mut counts) {
            show(seed, number, &format!(": {fault}"));
            exit(1);
        }
        next[kind] += KINDS;
        spent[kind] += began.elapsed();
    }
    // A run that shows little or nothing, whatever the panel.
    let few = |counts: &[u64]| {
        counts.iter().all(|&count| count == 0) || seconds >= LONG && counts.contains(&0)
    };
    let Counts {
        sheets,
        texts,
        reasons,
        surveys,
    } = &counts;
    if few(sheets) || few(texts) || few(reasons) || few(surveys) {
        eprintln!("fuzz: too little was tried: {}", counts.words());
        exit(1);
    }
    println!(
        "fuzz: {} s (seed {seed}): {}; none changes what is lent, writes past the record or sheet, \
         is answered differently by the independent programs, or fails to come back",
        start.elapsed().as_secs(),
        counts.words()
    );
}

#[derive(Default)]
struct Counts {
    /// That hold, that clash, and that are refused.
    sheets: [u64; 3],
    /// That are read, and that are refused by 20 to 24.
    texts: [u64; 6],
    /// That are written, that have too little room, that there are none of since the sheet holds, and
    /// whose sheets are refused.
    reasons: [u64; 4],
    /// That get a yes, that have a wrong step, whose lists are none, and whose sheets are refused.
    surveys: [u64; 4],
}

impl Counts {
    fn words(&self) -> String {
        let [holds, clashes, refused] = self.sheets;
        let [read, by_number @ ..] = self.texts;
        let by_number = (20..).zip(by_number);
        let by_number: Vec<String> = by_number
            .map(|(number, count)| format!("{count} by {number}"))
            .collect();
        let [written, small, hold, unread] = self.reasons;
        let [yes, wrong, no_list, sent_back] = self.surveys;
        format!(
            "{} sheets, of which {holds} hold, {clashes} clash and {refused} are refused; {} texts, \
             of which {read} are read and refused {}; {} sheets for a reason, of which {written} get \
             one, {small} have too little room, {hold} hold and {unread} are refused; {} reasons, of \
             which {yes} get a yes, {wrong} have a wrong step, {no_list} a list that is none and \
             {sent_back} a refused sheet",
            self.sheets.iter().sum::<u64>(),
            self.texts.iter().sum::<u64>(),
            by_number.join(", "),
            self.reasons.iter().sum::<u64>(),
            self.surveys.iter().sum::<u64>(),
        )
    }
}

fn whole(arg: &str) -> u64 {
    arg.parse().unwrap_or_else(|_| usage())
}

fn usage() -> ! {
    eprintln!("usage: fuzz SECONDS [SEED [FILE]]\n       fuzz show NUMBER SEED");
    exit(2);
}

/// Where the number of the input is kept: in the file, if one is given, so that it outlives a
/// program that is stopped.
fn kept(file: Option<&str>) -> &'static AtomicU64 {
    let file = file.map(|path| {
        let mut options = OpenOptions::new();
        let file = options.read(true).write(true).create(true).open(path);
        let file = file.unwrap_or_else(|error| panic!("{path}: {error}"));
        file.set_len(8).expect("a file of eight bytes");
        file
    });
    let (how, of) = match &file {
        Some(file) => (SHARED, file.as_raw_fd()),
        None => (PRIVATE | NO_FILE, -1),
    };
    // SAFETY: the page is fresh, stays mapped to the end of the program, and is referred to by
    // nothing else; its first eight bytes are whole ones of the file, and any bytes are a number.
    unsafe { &*map(ptr::null_mut(), PAGE, READ | WRITE, how, of).cast::<AtomicU64>() }
}

/// The bytes of one input, and how many its room has.
enum Input {
    Sheet(Vec<u8>, usize),
    Text(Vec<u8>, usize),
    /// A sheet, for a reason.
    Reason(Vec<u8>, usize),
    Survey(Survey),
}

/// How many kinds of input there are.
const KINDS: u64 = 4;

/// A reason to be checked, without a room.
struct Survey {
    sheet: Vec<u8>,
    list: Vec<u8>,
    steps: Vec<u8>,
}

/// The input of a number, always the same.
fn input(seed: u64, number: u64) -> Input {
    let (kind, number) = (number % KINDS, number / KINDS);
    match kind {
        0 => {
            let random = &mut Random::of(seed, "fuzz", number);
            Input::Sheet(sheet(seed, number, random), some_room(ROOM, random))
        }
        1 => text(seed, number),
        2 => {
            let random = &mut Random::of(seed, "fuzz reasons", number);
            Input::Reason(sheet(seed, number, random), some_room(REASON_ROOM, random))
        }
        _ => Input::Survey(survey(seed, number)),
    }
}

fn family(random: &mut Random) -> &'static Family {
    let own = random.below(FAMILIES.len() + FOR_REASONS.len());
    let family = FAMILIES.iter().chain(&FOR_REASONS).nth(own);
    family.expect("a family of this number")
}

fn sheet(seed: u64, number: u64, random: &mut Random) -> Vec<u8> {
    let mut sheet = family(random).sheet(seed, number);
    match random.below(4) {
        0 => {}
        1 => damage(&mut sheet, random),
        2 => {
            damage(&mut sheet, random);
            sheet.truncate(random.below(sheet.len() + 1));
            if random.below(2) == 0 && sheet.len() >= 2 {
                state_length(&mut sheet);
            }
        }
        _ => {
            // A good head, and records of anything: most are refused late, and some are judged.
            let (t, l) = (1 + random.below(MOST), random.below(MOST + 1));
            sheet = any_bytes(6 * (1 + t + l), random);
            sheet[2..6].copy_from_slice(&[1, t as u8, l as u8, 0]);
            state_length(&mut sheet);
            tame(&mut sheet, t, random);
        }
    }
    sheet
}

/// A reason of the tester's, right or not quite, or a part of it damaged.
fn survey(seed: u64, number: u64) -> Survey {
    let random = &mut Random::of(seed, "fuzz surveys", number);
    let case = SURVEYS[random.below(SURVEYS.len())].case(seed, number);
    let (mut sheet, mut list) = (case.sheet, case.list);
    let mut steps: Vec<u8> = case.steps.iter().flat_map(Step::bytes).collect();
    match random.below(8) {
        0..=2 => {}
        3 => damage(&mut sheet, random),
        4 => damage(&mut list, random),
        5 => damage(&mut steps, random),
        6 => steps = any_bytes(random.below(200), random),
        _ => {
            // cut short, or far more steps than a reason can have
            steps = steps.repeat(random.pick(&[1, 2, 300]));
            steps.truncate(random.below(steps.len() + 1));
        }
    }
    steps.truncate(INPUT);
    Survey { sheet, list, steps }
}

fn any_bytes(count: usize, random: &mut Random) -> Vec<u8> {
    (0..count).map(|_| random.below(256) as u8).collect()
}

/// More than a room has over what is needed.
const SPARE: usize = 600;

/// Mostly what is needed, and else less or more.
fn some_room(needed: usize, random: &mut Random) -> usize {
    match random.below(8) {
        0 => random.below(needed),
        1 => needed + random.below(SPARE),
        _ => needed,
    }
}

fn text(seed: u64, number: u64) -> Input {
    let random = &mut Random::of(seed, "fuzz texts", number);
    let mut text = TEXTS[random.below(TEXTS.len())].text(seed, number);
    match random.below(4) {
        0 | 1 => {}
        2 => mistype(&mut text, random),
        _ => {
            mistype(&mut text, random);
            text.truncate(random.below(text.len() + 1));
        }
    }
    let room = some_room(SHEET_ROOM, random);
    Input::Text(text, room)
}

/// Other bytes in a few places; those from elsewhere in the text often leave it one.
fn mistype(text: &mut [u8], random: &mut Random) {
    for _ in 0..1 + random.below(4) {
        if !text.is_empty() {
            let at = random.below(text.len());
            text[at] = match random.below(4) {
                0 => text[at] ^ 1 << random.below(8),
                1 => random.below(256) as u8,
                _ => text[random.below(text.len())],
            };
        }
    }
}

/// Other bytes in a few places.
fn damage(bytes: &mut [u8], random: &mut Random) {
    for _ in 0..1 + random.below(4) {
        if !bytes.is_empty() {
            let at = random.below(bytes.len());
            bytes[at] = match random.below(3) {
                0 => bytes[at] ^ 1 << random.below(8),
                1 => random.below(5) as u8,
                _ => random.below(256) as u8,
            };
        }
    }
}

/// Brings most fields into their range, so that records are read to the end.
fn tame(sheet: &mut [u8], t: usize, random: &mut Random) {
    for (own, record) in sheet[6..].chunks_mut(6).enumerate() {
        if random.below(200) == 0 {
            continue;
        }
        if own < t {
            let kind = if own == 0 {
                random.below(2)
            } else {
                random.below(5)
            };
            let used: [bool; 4] = [kind >= 3, kind >= 2, kind == 4, kind == 1 || kind == 2];
            record[0] = kind as u8;
            record[1] = if used[0] {
                7 + random.below(2) as u8
            } else {
                0
            };
            record[2] = if used[1] { random.below(own) as u8 } else { 0 };
            record[3] = if used[2] { random.below(own) as u8 } else { 0 };
            if !used[3] {
                record[4..].fill(0);
            }
        } else {
            record[0] %= 4;
            record[1] = 0;
            record[2] %= t as u8;
            record[3] %= t as u8;
        }
        if random.below(2) == 0 && record[4..] != [0, 0] {
            record[4..].copy_from_slice(&(random.below(7) as i16 - 3).to_be_bytes());
        }
    }
}

/// Memory that an input is lent from. The same pages are seen twice: written here, and lent from
/// where they can only be read.
struct Lent {
    written: *mut u8,
    lent: *const u8,
}

/// Enough pages for every sheet, list, text and row of steps.
const INPUT: usize = LONGEST;

impl Lent {
    fn new() -> Lent {
        // SAFETY: maps fresh pages, and keeps no other reference to them.
        unsafe {
            let file = memfd_create(b"input\0".as_ptr().cast(), 0);
            assert!(file >= 0 && ftruncate(file, INPUT as c_long) == 0);
            Lent {
                written: map(ptr::null_mut(), INPUT, READ | WRITE, SHARED, file),
                lent: before_a_wall(INPUT, |at| map(at, INPUT, READ, SHARED | FIXED, file)),
            }
        }
    }

    /// The input as it is lent.
    fn lend(&mut self, input: &[u8]) -> &[u8] {
        let at = INPUT - input.len();
        // SAFETY: the input lies within its pages, and nothing else refers to them while it is used.
        unsafe {
            slice::from_raw_parts_mut(self.written.add(at), input.len()).copy_from_slice(input);
            slice::from_raw_parts(self.lent.add(at), input.len())
        }
    }
}

/// Memory that rooms are lent from.
struct Room(*mut u8);

/// Enough pages for every room.
const ROOMS: usize = (REASON_ROOM + SPARE + PAGE) / PAGE * PAGE;

impl Room {
    fn new() -> Room {
        // SAFETY: maps fresh pages, and keeps no other reference to them.
        unsafe {
            Room(before_a_wall(ROOMS, |at| {
                map(at, ROOMS, READ | WRITE, PRIVATE | FIXED | NO_FILE, -1)
            }))
        }
    }

    /// A room of so many bytes, and what is before it in its first page, all untouched.
    fn lend(&mut self, room: usize) -> (&mut [u8], &mut [u8]) {
        let at = (ROOMS - room) / PAGE * PAGE;
        // SAFETY: the part lies within its pages, which can be written, and nothing else refers to
        // them while it is used.
        let pages = unsafe { slice::from_raw_parts_mut(self.0.add(at), ROOMS - at) };
        pages.fill(UNTOUCHED);
        let (before, room) = pages.split_at_mut(pages.len() - room);
        (room, before)
    }
}

/// The proved programs in that memory, beside the independent ones.
struct Tried {
    input: Lent,
    list: Lent,
    steps: Lent,
    room: Room,
    second: Panel,
    reader: Reader,
}

impl Tried {
    fn new() -> Tried {
        Tried {
            input: Lent::new(),
            list: Lent::new(),
            steps: Lent::new(),
            room: Room::new(),
            second: Panel::new(),
            reader: Reader::new(),
        }
    }

    /// Counts the answer, or says what is wrong with it.
    fn try_one(&mut self, input: &Input, counts: &mut Counts) -> Result<(), String> {
        let counted = match input {
            Input::Sheet(sheet, room) => {
                let number = self.judge(sheet, *room)?;
                &mut counts.sheets[usize::from(number.min(2))]
            }
            Input::Text(text, room) => {
                let number = self.read(text, *room)?;
                &mut counts.texts[usize::from(number.saturating_sub(19))]
            }
            Input::Reason(sheet, room) => match self.reason(sheet, *room)? {
                1 => &mut counts.reasons[0],
                25 => &mut counts.reasons[1],
                26 => &mut counts.reasons[2],
                _ => &mut counts.reasons[3],
            },
            Input::Survey(asked) => match self.survey(asked)? {
                0 => &mut counts.surveys[0],
                1 => &mut counts.surveys[1],
                27 => &mut counts.surveys[2],
                _ => &mut counts.surveys[3],
            },
        };
        *counted += 1;
        Ok(())
    }

    /// The answer's number, or what is wrong with the answer.
    fn read(&mut self, text: &[u8], room: usize) -> Result<u8, String> {
        let mut expected = vec![UNTOUCHED; room];
        let right = self.reader.read(text, &mut expected);
        let lent = self.input.lend(text);
        let (room, before) = self.room.lend(room);
        let got = bench::transcribe(lent, room);
        same(got, right)?;
        unchanged(text, lent)?;
        untouched("before the room", before)?;
        match room.iter().zip(&expected).position(|(a, b)| a != b) {
            Some(at) => Err(format!(
                "byte {at} of the room is {}, where the independent reader has {}",
                room[at], expected[at]
            )),
            None => Ok(got.0),
        }
    }

    /// The answer's number, or what is wrong with the answer.
    fn judge(&mut self, sheet: &[u8], room: usize) -> Result<u8, String> {
        let mut expected = vec![UNTOUCHED; room];
        let (number, place) = self.second.judge(sheet, &mut expected);
        let lent = self.input.lend(sheet);
        let (room, before) = self.room.lend(room);
        let answer = baruvkesh::judge(lent, room);
        same(
            (answer.number(), answer.place() as u32),
            (number, place.into()),
        )?;
        unchanged(sheet, lent)?;
        untouched("before the room", before)?;
        let end = if number < 2 { usize::from(place) } else { 0 };
        untouched("past the record", &room[end..])?;
        if number == 1 && room[..end] != expected[..end] {
            return Err(format!(
                "listed {:?}, and not {:?}",
                &room[8..end],
                &expected[8..end]
            ));
        }
        if number == 0 {
            let d = i64::from(u16::from_be_bytes([room[4], room[5]]));
            let eight = |bytes: &[u8]| i64::from_be_bytes(bytes.try_into().unwrap());
            let n: Vec<i64> = room[8..end].chunks(8).map(eight).collect();
            if room[..4] != expected[..4] || room[6..8] != [0, 0] {
                return Err(format!("the record begins {:?}", &room[..8]));
            }
            if let Some(rule) = meaning::broken(sheet, d, &n) {
                return Err(rule);
            }
        }
        Ok(number)
    }

    /// The answer's number, or what is wrong with the answer.
    fn reason(&mut self, sheet: &[u8], room: usize) -> Result<u8, String> {
        let mut judged = [0; ROOM];
        let (verdict, place) = self.second.judge(sheet, &mut judged);
        let lent = self.input.lend(sheet);
        let (room, before) = self.room.lend(room);
        let enough = room.len() >= REASON_ROOM;
        let answer = baruvkesh::reason(lent, room);
        let (number, length) = (answer.number(), answer.place());
        let right = match verdict {
            0 => (26, 0),
            1 if !enough => (25, 0),
            // which reason is written is free, and so is its length
            1 => (1, length as u32),
            _ => (verdict, place.into()),
        };
        same((number, length as u32), right)?;
        unchanged(sheet, lent)?;
        untouched("before the room", before)?;
        let end = if number == 1 { length } else { 0 };
        untouched("past the record", &room[end..])?;
        if number == 1 {
            let Reason { list, steps } = Reason::from(&room[..end])?;
            if list != judged[8..usize::from(place)] {
                return Err(format!("a reason for {list:?}, which isn't the first list"));
            }
            let spare = needless(sheet, &list, &steps).map_err(|wrong| wrong.to_string())?;
            if !spare.is_empty() {
                return Err(format!("the last step doesn't rest on {spare:?}"));
            }
            // our own check says yes to our own reasons
            same(
                bench::survey(sheet, &list, &room[10 + list.len()..end]),
                (0, 0),
            )?;
        }
        Ok(number)
    }

    /// The answer's number, or what is wrong with the answer.
    fn survey(&mut self, asked: &Survey) -> Result<u8, String> {
        let right = told::answer(&asked.sheet, &asked.list, &asked.steps);
        let sheet = self.input.lend(&asked.sheet);
        let list = self.list.lend(&asked.list);
        let steps = self.steps.lend(&asked.steps);
        let got = bench::survey(sheet, list, steps);
        same(got, right)?;
        unchanged(&asked.sheet, sheet)?;
        unchanged(&asked.list, list)?;
        unchanged(&asked.steps, steps)?;
        Ok(got.0)
    }
}

fn same(got: (u8, u32), right: (u8, u32)) -> Result<(), String> {
    match got == right {
        true => Ok(()),
        false => Err(format!(
            "answered {got:?}, where the independent program has {right:?}"
        )),
    }
}

fn unchanged(input: &[u8], lent: &[u8]) -> Result<(), String> {
    match lent == input {
        true => Ok(()),
        false => Err("what was lent was changed".to_string()),
    }
}

fn untouched(place: &str, bytes: &[u8]) -> Result<(), String> {
    match bytes.iter().all(|&byte| byte == UNTOUCHED) {
        true => Ok(()),
        false => Err(format!("bytes {place} were changed")),
    }
}

fn show(seed: u64, number: u64, fault: &str) {
    let in_room = |what: &str, room: usize| format!("{what} with a room of {room} bytes");
    let (what, lines) = match input(seed, number) {
        Input::Sheet(sheet, room) => (in_room("a sheet", room), sheet_lines(&sheet)),
        Input::Text(text, room) => {
            let lines = text.split_inclusive(|&byte| byte == b'\n');
            let lines = lines.map(|line| line.escape_ascii().to_string());
            (in_room("a text", room), lines.collect())
        }
        Input::Reason(sheet, room) => {
            let what = in_room("a sheet for a reason", room);
            (what, sheet_lines(&sheet))
        }
        Input::Survey(Survey { sheet, list, steps }) => {
            let mut lines = sheet_lines(&sheet);
            lines.push(format!("list: {list:?}"));
            lines.push(format!("steps: {steps:02X?}"));
            let told = told::steps(&steps).into_iter().enumerate();
            lines.extend(told.map(|(own, step)| format!("{own}: {}", step.words())));
            ("a reason".to_string(), lines)
        }
    };
    println!("input {number} of seed {seed}, {what}{fault}");
    for line in lines {
        println!("  {line}");
    }
}

fn sheet_lines(sheet: &[u8]) -> Vec<String> {
    [hex(sheet), words(sheet)].concat()
}

fn watch(seed: u64, asked: &'static AtomicU64) {
    thread::spawn(move || loop {
        let before = asked.load(Relaxed);
        thread::sleep(PATIENCE);
        if asked.load(Relaxed) == before {
            show(seed, before, ": no answer within a minute");
            exit(1);
        }
    });
}

/// Pages with one behind them that can't be touched.
unsafe fn before_a_wall(size: usize, mapped: impl Fn(*mut c_void) -> *mut u8) -> *mut u8 {
    let both = map(ptr::null_mut(), size + PAGE, 0, PRIVATE | NO_FILE, -1);
    mapped(both.cast())
}

unsafe fn map(at: *mut c_void, size: usize, access: c_int, how: c_int, file: c_int) -> *mut u8 {
    let mapped = mmap(at, size, access, how, file, 0);
    assert!(mapped as isize != -1, "no memory could be mapped");
    mapped.cast()
}

const READ: c_int = 1;
const WRITE: c_int = 2;
const SHARED: c_int = 1;
const PRIVATE: c_int = 2;
const FIXED: c_int = 0x10;
const NO_FILE: c_int = 0x20;

extern "C" {
    fn memfd_create(name: *const c_char, flags: u32) -> c_int;
    fn ftruncate(file: c_int, size: c_long) -> c_int;
    fn mmap(
        at: *mut c_void,
        size: usize,
        access: c_int,
        how: c_int,
        file: c_int,
        offset: c_long,
    ) -> *mut c_void;
}
