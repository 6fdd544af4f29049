//! The proved library, called in a process of its own (`calls.c`, which says what goes over the
//! pipe).

use std::io::{BufReader, BufWriter, Read, Write};
use std::process::{Child, ChildStdin, Command, Stdio};
use std::sync::mpsc::{channel, Receiver};
use std::thread;

use crate::call::{pattern, Call, Name, Place, Reply};
use crate::program::Program;
use crate::second::edition::Edition;

/// What runs the process, from the top of the repository.
pub const RUN: [&str; 2] = ["tools/x86-64", "target/calls"];

/// The process, and what it has replied so far. A thread reads the replies as they come, so that
/// neither side ever waits for the other to read.
pub struct Proved {
    process: Child,
    calls: BufWriter<ChildStdin>,
    replies: Receiver<Vec<u8>>,
}

/// A reply with the time that its calls took.
pub struct Timed {
    pub reply: Reply,
    pub nanoseconds: u64,
}

impl Proved {
    pub fn start() -> Result<Proved, String> {
        let mut process = Command::new(RUN[0])
            .args(&RUN[1..])
            .stdin(Stdio::piped())
            .stdout(Stdio::piped())
            .stderr(Stdio::piped())
            .spawn()
            .map_err(|error| format!("{}: {error}", RUN.join(" ")))?;
        let calls = BufWriter::with_capacity(1 << 16, process.stdin.take().expect("piped"));
        let mut said = BufReader::with_capacity(1 << 20, process.stdout.take().expect("piped"));
        let (sender, replies) = channel();
        thread::spawn(move || {
            while let Some(reply) = read_reply(&mut said) {
                if sender.send(reply).is_err() {
                    break;
                }
            }
        });
        Ok(Proved { process, calls, replies })
    }

    /// The call made so many times, with nothing else on the way.
    pub fn repeat(&mut self, call: &Call, times: u64) -> Result<Timed, String> {
        let _ = self.calls.write_all(&message(call, times));
        self.timed(call)
    }

    /// The next reply, which is to the given call.
    fn timed(&mut self, call: &Call) -> Result<Timed, String> {
        // What it ended on is told by the replies that are missing.
        let _ = self.calls.flush();
        match self.replies.recv() {
            Ok(reply) => Ok(parse(&reply, call)),
            Err(_) => Err(self.ended()),
        }
    }

    /// It says at most a line before it ends, so nobody need read that earlier.
    fn ended(&mut self) -> String {
        let mut said = String::new();
        let _ = self.process.stderr.take().map(|mut pipe| pipe.read_to_string(&mut said));
        let status = self.process.wait().map_or("lost".into(), |status| status.to_string());
        format!("the process of the proved library ended here: {status}\n{}", said.trim_end())
    }
}

impl Program for Proved {
    fn put(&mut self, call: &Call) -> Result<(), String> {
        let _ = self.calls.write_all(&message(call, 1));
        Ok(())
    }

    fn reply(&mut self, call: &Call) -> Result<Reply, String> {
        self.timed(call).map(|timed| timed.reply)
    }
}

impl Drop for Proved {
    fn drop(&mut self) {
        let _ = self.process.kill();
        let _ = self.process.wait();
    }
}

/// The bytes that ask for a call, made so many times.
pub fn message(call: &Call, times: u64) -> Vec<u8> {
    let name = match call.name {
        Name::Touch => 0,
        Name::Solve => 1,
        Name::Make => 2,
        Name::Gate => 3,
        Name::Move(Edition::Second) => 4,
        Name::Move(Edition::First) => 5,
    };
    let mut bytes = Vec::new();
    tell(&mut bytes, &[0, name, times, call.numbers.len() as u64, call.buffers.len() as u64]);
    call.numbers.iter().for_each(|&(_, number)| tell(&mut bytes, &[number]));
    for buffer in &call.buffers {
        let place = match buffer.place {
            Place::Last => 0,
            Place::WordBefore => 8,
            Place::First => u64::MAX,
        };
        let told = buffer.bytes != pattern(buffer.bytes.len());
        tell(&mut bytes, &[buffer.bytes.len() as u64, place, told.into()]);
        if told {
            bytes.extend(&buffer.bytes);
        }
    }
    let length = bytes.len() as u64 - 8;
    bytes[..8].copy_from_slice(&length.to_le_bytes());
    bytes
}

fn tell(bytes: &mut Vec<u8>, numbers: &[u64]) {
    numbers.iter().for_each(|number| bytes.extend(number.to_le_bytes()));
}

/// What follows the length; nothing at the end of the replies.
fn read_reply(said: &mut impl Read) -> Option<Vec<u8>> {
    let mut length = [0; 8];
    said.read_exact(&mut length).ok()?;
    let mut reply = vec![0; u64::from_le_bytes(length) as usize];
    said.read_exact(&mut reply).ok()?;
    Some(reply)
}

fn parse(bytes: &[u8], call: &Call) -> Timed {
    let mut reader = Reader { bytes };
    let nanoseconds = reader.number();
    let answer = (0..reader.number()).map(|_| reader.number()).collect();
    let buffers = call.buffers.iter().map(|buffer| reader.buffer(&buffer.bytes)).collect();
    assert!(reader.bytes.is_empty(), "more came back than was lent");
    Timed { reply: Reply { answer, buffers }, nanoseconds }
}

struct Reader<'a> {
    bytes: &'a [u8],
}

impl<'a> Reader<'a> {
    fn take(&mut self, count: usize) -> &'a [u8] {
        let (taken, rest) = self.bytes.split_at(count);
        self.bytes = rest;
        taken
    }

    fn number(&mut self) -> u64 {
        u64::from_le_bytes(self.take(8).try_into().expect("8 bytes"))
    }

    /// A buffer told in runs over what was lent.
    fn buffer(&mut self, lent: &[u8]) -> Vec<u8> {
        let mut now = Vec::with_capacity(lent.len());
        while now.len() < lent.len() {
            let (kind, count) = (self.number(), self.number() as usize);
            match kind {
                0 => now.extend_from_slice(&lent[now.len()..now.len() + count]),
                1 => now.resize(now.len() + count, 0),
                _ => now.extend_from_slice(self.take(count)),
            }
        }
        now
    }
}
