//! What is under test: a command that answers frames over a pipe. It is written to from one
//! thread and read from in another, so that neither side waits for the other's full pipe.

use std::fmt;
use std::io::{self, Read, Write};
use std::process::{Child, ChildStdin, ChildStdout, Command, Stdio};
use std::sync::mpsc::{channel, sync_channel, Receiver, Sender, SyncSender};
use std::thread;
use std::time::{Duration, Instant};

/// How many questions may be on their way: enough for a command that gathers its answers in a buffer.
const AHEAD: usize = 1024;
/// How long an answer may take, and the end behind the last one.
const PATIENCE: Duration = Duration::from_secs(60);

/// What the command is asked.
pub trait Question: Send + 'static {
    /// The bytes that are sent.
    fn frame(&self) -> Vec<u8>;
    /// How many bytes the answer has.
    fn answer_length(&self) -> Length;
}

/// How many bytes an answer has.
#[derive(Clone, Copy)]
pub enum Length {
    /// So many, whatever it says.
    Fixed(usize),
    /// A head of so many; behind it so many more if the head begins with that number, and else one.
    ByNumber {
        head: usize,
        number: u8,
        more: usize,
    },
}

impl Length {
    /// Given as many bytes as are surely there, how many there are.
    fn of(self, answer: &[u8]) -> usize {
        match self {
            Length::Fixed(length) => length,
            Length::ByNumber { head, .. } if answer.len() < head => head,
            Length::ByNumber { head, number, more } if answer[0] == number => head + more,
            Length::ByNumber { head, .. } => head + 1,
        }
    }
}

/// What there is instead of an answer.
pub enum Silence {
    /// The end of the output, after so many bytes of an answer of so many.
    Ended(usize, usize),
    Late,
}

impl fmt::Display for Silence {
    fn fmt(&self, f: &mut fmt::Formatter) -> fmt::Result {
        match self {
            Silence::Ended(0, _) => write!(f, "no answer: the command has ended"),
            Silence::Ended(bytes, of) => write!(f, "{bytes} bytes of {of}: the command has ended"),
            Silence::Late => write!(f, "no answer within {} seconds", PATIENCE.as_secs()),
        }
    }
}

type Heard = Result<Vec<u8>, Silence>;

pub struct Tested<Q> {
    command: Running,
    sent: Receiver<Q>,
    heard: Receiver<Heard>,
}

impl<Q: Question> Tested<Q> {
    /// Starts the command and sends it the questions.
    pub fn start<I>(command: &[String], questions: I) -> io::Result<Tested<Q>>
    where
        I: Iterator<Item = Q> + Send + 'static,
    {
        let mut command = Command::new(&command[0])
            .args(&command[1..])
            .stdin(Stdio::piped())
            .stdout(Stdio::piped())
            .spawn()?;
        let input = command.stdin.take().expect("its input is a pipe");
        let output = command.stdout.take().expect("its output is a pipe");
        let (send, sent) = sync_channel(AHEAD);
        let (hear, heard) = sync_channel(AHEAD);
        let (announce, announced) = channel();
        thread::spawn(move || write(input, questions, announce, send));
        thread::spawn(move || read(output, announced, hear));
        Ok(Tested {
            command: Running(command),
            sent,
            heard,
        })
    }

    /// The next question, until there are no more.
    pub fn sent(&self) -> Option<Q> {
        self.sent.recv().ok()
    }

    /// The next answer. Behind the last one is the end, or a byte too many.
    pub fn hear(&self) -> Heard {
        self.heard
            .recv_timeout(PATIENCE)
            .unwrap_or(Err(Silence::Late))
    }

    /// Waits for the command, whose output has ended; or what is wrong with its end. A command that
    /// fails behind its last answer fails.
    pub fn end(self) -> Result<(), String> {
        let Tested {
            mut command, sent, ..
        } = self;
        // So that no more is written, and the command's input ends too.
        drop(sent);
        let start = Instant::now();
        while start.elapsed() < PATIENCE {
            let ended = command.0.try_wait();
            match ended.map_err(|error| format!("the command can't be waited for: {error}"))? {
                Some(status) if status.success() => return Ok(()),
                Some(status) => {
                    return Err(match status.code() {
                        Some(code) => format!("the command ended with status {code}"),
                        None => format!("the command was ended by a signal ({status})"),
                    })
                }
                None => thread::sleep(Duration::from_millis(5)),
            }
        }
        Err("the command doesn't end at the end of its output".to_string())
    }
}

struct Running(Child);

impl Drop for Running {
    /// Ends a command that hasn't ended by itself.
    fn drop(&mut self) {
        let _ = self.0.kill();
        let _ = self.0.wait();
    }
}

/// A question is made known before it is written, so that the one at which the command stops can be
/// named. An error just ends the writing: it shows as answers that don't come.
fn write<Q: Question>(
    mut input: ChildStdin,
    questions: impl Iterator<Item = Q>,
    announce: Sender<Length>,
    send: SyncSender<Q>,
) {
    for question in questions {
        let (frame, length) = (question.frame(), question.answer_length());
        if announce.send(length).is_err() || send.send(question).is_err() {
            return;
        }
        if input.write_all(&frame).is_err() {
            return;
        }
    }
}

fn read(mut output: ChildStdout, announced: Receiver<Length>, hear: SyncSender<Heard>) {
    loop {
        let announced = announced.recv().unwrap_or(Length::Fixed(1));
        let (mut answer, mut length) = (Vec::new(), 0);
        // The rest is read once the head has told how long it is.
        while answer.len() == length && announced.of(&answer) > length {
            let more = announced.of(&answer) - length;
            length += more;
            let _ = output.by_ref().take(more as u64).read_to_end(&mut answer);
        }
        let heard = match answer.len() {
            bytes if bytes == length => Ok(answer),
            bytes => Err(Silence::Ended(bytes, length)),
        };
        let ended = heard.is_err();
        if hear.send(heard).is_err() || ended {
            return;
        }
    }
}
