//! The program: one line for a sheet or a text, and batches of frames.

use second::reason::{self, Lapse, Reason, Step, Surveyor, Writer};
use second::sheet::ROOM;
use second::text::{Reader, Slip};
use second::Panel;
use std::io::{Read, Write};
use std::process::{Command, Output, Stdio};

fn run(arguments: &[&str], input: &[u8]) -> Output {
    let mut program = Command::new(env!("CARGO_BIN_EXE_second"));
    program
        .args(arguments)
        .stdin(Stdio::piped())
        .stdout(Stdio::piped())
        .stderr(Stdio::piped());
    let mut running = program.spawn().unwrap();
    // A program that doesn't read its input is no fault here.
    let _ = running.stdin.take().unwrap().write_all(input);
    running.wait_with_output().unwrap()
}

fn read(name: &str) -> Vec<u8> {
    let path = format!("{}/../sheets/{name}.sheet", env!("CARGO_MANIFEST_DIR"));
    std::fs::read(path).unwrap()
}

fn frame(sheet: &[u8]) -> Vec<u8> {
    let mut frame = (sheet.len() as u16).to_be_bytes().to_vec();
    frame.extend(sheet);
    frame
}

fn answer(mut panel: Panel, sheet: &[u8]) -> Vec<u8> {
    let mut room = [0xAA; ROOM];
    let (number, place) = panel.judge(sheet, &mut room);
    let mut answer = vec![number];
    answer.extend(place.to_be_bytes());
    answer.extend(room);
    answer
}

#[test]
fn one_sheet_gets_one_line() {
    let long = [read("14b"), vec![0; 1_000]].concat();
    for (sheet, line) in [
        (read("01"), "clashes 0 1 2\n"),
        (read("02"), "holds\n"),
        (read("r13c"), "refused 13 at 2\n"),
        (Vec::new(), "refused 10 at 0\n"),
        (long, "refused 10 at 0\n"),
    ] {
        let output = run(&[], &sheet);
        assert!(output.status.success());
        assert_eq!(String::from_utf8(output.stdout).unwrap(), line);
    }
}

#[test]
fn a_batch_answers_every_whole_frame_before_one_cut_short_or_too_large() {
    let sheets = [
        read("01"),
        read("02"),
        read("r13a"),
        Vec::new(),
        vec![0; 4_096],
        read("14b"),
    ];
    let frames: Vec<u8> = sheets.iter().flat_map(|sheet| frame(sheet)).collect();
    let answers: Vec<u8> = sheets
        .iter()
        .flat_map(|sheet| answer(Panel::new(), sheet))
        .collect();
    let cut = &frame(&read("01"))[..49];
    let too_large = [&[0x10, 0x01][..], &[0; 0x1001]].concat();
    for end in [&[][..], &[0], cut, &too_large] {
        let output = run(&["batch"], &[&frames, end].concat());
        assert!(output.status.success());
        assert_eq!(output.stdout, answers);
    }
}

#[test]
fn one_text_gets_one_line() {
    let longest = "x0<x0\n".repeat(10_923).into_bytes();
    for (text, line) in [
        (&b"x0<=x1\nx1<=x0\nf7(x0)!=f7(x1)\n"[..], "clashes 0 1 2\n"),
        (b"x0<=x1\n", "holds\n"),
        (b"x0<=x1", "refused 20 at 6\n"),
        (b"", "refused 20 at 0\n"),
        (&longest[..65_535], "refused 23 at 768\n"),
        (&longest, "longer than 65535 bytes\n"),
    ] {
        let output = run(&["typed"], text);
        assert!(output.status.success());
        assert_eq!(String::from_utf8(output.stdout).unwrap(), line);
    }
}

/// A frame of a text, and the answer to it.
fn text_frame(room: u16, text: &[u8]) -> Vec<u8> {
    let count = text.len() as u32;
    [&room.to_be_bytes()[..], &count.to_be_bytes(), text].concat()
}

fn text_answer(reader: Reader, room: u16, text: &[u8]) -> Vec<u8> {
    let mut room = vec![0xAA; usize::from(room)];
    let (number, place) = reader.read(text, &mut room);
    [&[number][..], &place.to_be_bytes(), &room].concat()
}

#[test]
fn a_batch_of_texts_answers_every_whole_frame_before_one_cut_short_or_too_large() {
    let long = vec![b'x'; 65_536];
    let asked: [(u16, &[u8]); 6] = [
        (1_542, b"x0<=x1\n"),
        (1_541, b"x0<=x1\n"),
        (0, b""),
        (1_542, b""),
        (2048, &long),
        (2048, b"f7(x0)=x0+1\n"),
    ];
    let frames = asked.map(|(room, text)| text_frame(room, text)).concat();
    let answers = asked.map(|(room, text)| text_answer(Reader::new(), room, text));
    let answers = answers.concat();
    let cut = &text_frame(1_542, b"x0=x1\n")[..11];
    let too_large = text_frame(2049, b"x0=x1\n");
    let too_long = text_frame(1_542, &[b'x'; 65_537]);
    for end in [
        &[][..],
        &[6],
        &[6, 6],
        &[6, 6, 0, 0, 0],
        cut,
        &too_large,
        &too_long,
    ] {
        let output = run(&["batch_text"], &[&frames, end].concat());
        assert!(output.status.success());
        assert_eq!(output.stdout, answers);
    }
}

#[test]
fn a_batch_of_texts_may_make_a_slip() {
    let (slip, text) = (Slip::from_name("again").unwrap(), b"x0=x0\n");
    let output = run(&["batch_text", "again"], &text_frame(1_542, text));
    assert_eq!(output.stdout, text_answer(Reader::with(slip), 1_542, text));
}

/// A frame of a sheet that wants a reason, and the answer to it.
fn reason_frame(room: u32, sheet: &[u8]) -> Vec<u8> {
    let count = sheet.len() as u16;
    [&room.to_be_bytes()[..], &count.to_be_bytes(), sheet].concat()
}

fn reason_answer(mut writer: Writer, room: u32, sheet: &[u8]) -> Vec<u8> {
    let mut room = vec![0xAA; room as usize];
    let (number, place) = writer.write(sheet, &mut room);
    if number != 1 {
        room = vec![u8::from(room.iter().all(|&byte| byte == 0xAA))];
    }
    [&[number][..], &place.to_be_bytes(), &room].concat()
}

#[test]
fn a_batch_of_reasons_answers_every_whole_frame_before_one_cut_short_or_too_large() {
    let enough = reason::ROOM as u32;
    let asked = [
        (enough, read("01")),
        (enough - 1, read("01")),
        (0, read("01")),
        (0, read("02")),
        (enough, read("02")),
        (0, Vec::new()),
        (enough, vec![0; 4_096]),
        (1, read("r13c")),
        (enough, read("14b")),
    ];
    let frame = |asked: &(u32, Vec<u8>)| reason_frame(asked.0, &asked.1);
    let frames: Vec<u8> = asked.iter().flat_map(frame).collect();
    let answer = |asked: &(u32, Vec<u8>)| reason_answer(Writer::new(), asked.0, &asked.1);
    let answers: Vec<u8> = asked.iter().flat_map(answer).collect();
    let cut = &reason_frame(enough, &read("01"))[..53];
    let too_large = reason_frame(enough + 1, &read("01"));
    let too_long = reason_frame(enough, &[0; 4_097]);
    for end in [
        &[][..],
        &[0],
        &[0, 0, 0],
        &[0, 0, 0, 0, 0],
        cut,
        &too_large,
        &too_long,
    ] {
        let output = run(&["batch_reason"], &[&frames, end].concat());
        assert!(output.status.success());
        assert!(output.stdout == answers, "{end:?}");
    }
}

#[test]
fn a_batch_of_reasons_may_have_a_lapse() {
    let (lapse, sheet) = (Lapse::from_name("early").unwrap(), read("01"));
    let output = run(&["batch_reason", "early"], &reason_frame(9, &sheet));
    assert_eq!(output.stdout, reason_answer(Writer::with(lapse), 9, &sheet));
    assert_eq!(output.stdout, [25, 0, 0, 0, 0, 0]);
}

/// The reason that is written for a sheet.
fn reason_of(sheet: &[u8]) -> Reason {
    let mut room = vec![0; reason::ROOM];
    let (number, length) = Writer::new().write(sheet, &mut room);
    assert_eq!(number, 1);
    Reason::from(&room[..length as usize]).unwrap()
}

/// A frame of a reason that is to be checked, and the answer to it.
fn survey_frame(sheet: &[u8], list: &[u8], steps: &[Step]) -> Vec<u8> {
    let mut frame = frame(sheet);
    frame.push(list.len() as u8);
    frame.extend(list);
    frame.extend((steps.len() as u16).to_be_bytes());
    frame.extend(steps.iter().flat_map(Step::bytes));
    frame
}

fn survey_answer(surveyor: Surveyor, sheet: &[u8], list: &[u8], steps: &[Step]) -> Vec<u8> {
    let (number, place) = surveyor.answer(sheet, list, steps);
    [&[number][..], &place.to_be_bytes()].concat()
}

#[test]
fn a_batch_of_checks_answers_every_whole_frame_before_one_cut_short_or_too_large() {
    let sheet = read("13");
    let Reason { list, steps } = reason_of(&sheet);
    let longest = steps[steps.len() - 1].clone();
    let longest = Step {
        first: vec![reason::Bound::entry(9); 255],
        second: vec![reason::Bound::tie(9); 255],
        ..longest
    };
    let asked = [
        (sheet.clone(), list.clone(), steps.clone()),
        (sheet.clone(), list.clone(), steps[1..].to_vec()),
        (sheet.clone(), Vec::new(), Vec::new()),
        (Vec::new(), Vec::new(), Vec::new()),
        (vec![0; 4_096], list.clone(), steps.clone()),
        (sheet.clone(), (0..=254).collect(), steps.clone()),
        (sheet.clone(), list.clone(), vec![longest; 256]),
        (sheet.clone(), list.clone(), steps.clone()),
    ];
    type Asked = (Vec<u8>, Vec<u8>, Vec<Step>);
    let frame = |(sheet, list, steps): &Asked| survey_frame(sheet, list, steps);
    let frames: Vec<u8> = asked.iter().flat_map(frame).collect();
    let answer = |(sheet, list, steps): &Asked| survey_answer(Surveyor::new(), sheet, list, steps);
    let answers: Vec<u8> = asked.iter().flat_map(answer).collect();
    assert_eq!(answers[..5], [0; 5]);
    let whole = survey_frame(&sheet, &list, &steps);
    let too_long = survey_frame(&[0; 4_097], &list, &steps);
    let too_many = survey_frame(&sheet, &list, &vec![steps[0].clone(); 257]);
    for end in (0..whole.len())
        .map(|end| &whole[..end])
        .chain([&too_long[..], &too_many])
    {
        let output = run(&["batch_survey"], &[&frames, end].concat());
        assert!(output.status.success());
        assert!(output.stdout == answers, "{end:?}");
    }
}

#[test]
fn a_batch_of_checks_may_make_a_slip() {
    let (slip, sheet) = (reason::Slip::from_name("stops").unwrap(), read("13"));
    let Reason { list, mut steps } = reason_of(&sheet);
    steps.push(steps[0].clone());
    let frame = survey_frame(&sheet, &list, &steps);
    let output = run(&["batch_survey", "stops"], &frame);
    let answer = survey_answer(Surveyor::with(slip), &sheet, &list, &steps);
    assert_eq!(output.stdout, answer);
    assert_eq!(output.stdout, [0; 5]);
}

#[test]
fn a_sheet_and_a_record_behind_it_get_one_line() {
    let sheet = read("01");
    let Reason { list, steps } = reason_of(&sheet);
    let record = |list: &[u8], steps: &[Step]| {
        let (list, steps) = (list.to_vec(), steps.to_vec());
        Reason { list, steps }.bytes()
    };
    let whole = record(&list, &steps);
    let mut wrong_ties = whole.clone();
    wrong_ties[5] += 1;
    let line = |sheet: &[u8], record: &[u8]| {
        let output = run(&["survey"], &[sheet, record].concat());
        assert!(output.status.success());
        String::from_utf8(output.stdout).unwrap()
    };
    for (record, said) in [
        (whole.clone(), "yes\n"),
        (record(&list, &steps[1..]), "wrong at 0\n"),
        (record(&list, &steps[..2]), "wrong at 2\n"),
        (record(&list, &[]), "wrong at 0\n"),
        (record(&[], &steps), "wrong at 0\n"),
        (record(&[1, 0, 2], &steps), "refused 27 at 0\n"),
        (record(&[0, 1, 2, 3], &steps), "refused 27 at 0\n"),
        (record(&[0, 1, 2, 200], &steps), "refused 27 at 0\n"),
        (wrong_ties, "no reason record\n"),
        (whole[1..].to_vec(), "no reason record\n"),
        ([&whole[..], &[0]].concat(), "no reason record\n"),
        (Vec::new(), "no reason record\n"),
    ] {
        assert_eq!(line(&sheet, &record), said, "{record:?}");
    }
    // The sheet comes first, and is as long as it says; a shorter input is a shorter sheet.
    let mut other = sheet.clone();
    other[2] = 2;
    assert_eq!(line(&other, &whole), "refused 11 at 0\n");
    for (sheet, said) in [
        (&[][..], "refused 10 at 0\n"),
        (&[0], "refused 10 at 0\n"),
        (&[0, 0], "refused 10 at 0\n"),
        (&[0, 1], "refused 10 at 0\n"),
        (&sheet[..47], "refused 10 at 0\n"),
    ] {
        assert_eq!(line(sheet, &[]), said, "{sheet:?}");
    }
    assert_eq!(line(&[0, 0], &whole), "refused 10 at 0\n");
}

#[test]
fn a_batch_may_take_a_shortcut_and_other_words_are_not_understood() {
    let sheet = read("06");
    let fewest = second::Shortcut::from_name("fewest").unwrap();
    let output = run(&["batch", "fewest"], &frame(&sheet));
    assert_eq!(output.stdout, answer(Panel::with(fewest), &sheet));
    for arguments in [
        &["bunch"][..],
        &["batch", "honest"],
        &["batch", "once", "twice"],
        &["batch", "again"],
        &["batch_text", "once"],
        &["batch_reason", "once"],
        &["batch_reason", "early", "writes"],
        &["batch_survey", "early"],
        &["batch_survey", "stops", "again"],
        &["survey", "stops"],
        &["typed", "again"],
    ] {
        let output = run(arguments, &[]);
        assert_eq!(output.status.code(), Some(2));
        assert!(output.stdout.is_empty() && !output.stderr.is_empty());
    }
}

#[test]
fn a_batch_answers_while_the_other_side_waits() {
    let mut program = Command::new(env!("CARGO_BIN_EXE_second"));
    program
        .arg("batch")
        .stdin(Stdio::piped())
        .stdout(Stdio::piped());
    let mut running = program.spawn().unwrap();
    let mut input = running.stdin.take().unwrap();
    let mut output = running.stdout.take().unwrap();
    let sheet = read("13");
    let frames = frame(&sheet).repeat(4);
    let one = frames.len() / 4;
    let mut given = vec![0; 3 + ROOM];
    let mut sent = 0;
    // The other side stops between frames, amid a count, amid a sheet, and at the end.
    for end in [one, 2 * one + 1, 3 * one + 10, 4 * one] {
        input.write_all(&frames[sent..end]).unwrap();
        sent = end;
        output.read_exact(&mut given).unwrap();
        assert_eq!(given, answer(Panel::new(), &sheet));
    }
    drop(input);
    assert!(running.wait().unwrap().success());
}
