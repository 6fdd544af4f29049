//! Seconds and instructions of whole solves, of a list made and of a word put to the gate.

use std::env;
use std::fs;
use std::io::{self, Write};
use std::path::{Path, PathBuf};
use std::process::{Command, Stdio};
use std::time::{Duration, Instant};

use crate::call::{Buffer, Call, Name};
use crate::everyday;
use crate::keys::{faulty, keys};
use crate::program::{line, Calls, Second};
use crate::proved::{message, Proved, RUN};
use crate::second::sheet::LENGTH_LIMIT;
use crate::second::solve::{Solved, WORK};

/// Each measure is repeated until so much time has passed.
const ENOUGH: Duration = Duration::from_millis(200);
/// The second program walks each letter.
const SECOND_BUDGET: u64 = 50_000;

/// What is measured, with what is lent to it.
pub enum Task {
    Solve { sheet: Vec<u8>, work: Vec<u64>, out: Vec<u8> },
    Make { sheet: Vec<u8>, root: u64, list: Vec<u8> },
    Gate { list: Vec<u8>, text: Vec<u8>, work: Vec<u64> },
}

/// What was answered, for how many things (trials, bytes, or a word), and what one call took.
struct Measure {
    answer: String,
    things: u64,
    seconds: f64,
    instructions: Option<u64>,
}

impl Task {
    /// `make` and `gate` are of the everyday filter's list; any other name is a sheet's path.
    pub fn new(name: &str) -> io::Result<Task> {
        let (filter, root) = everyday::filter();
        let (list, work) = (everyday::list(), vec![0; WORK]);
        Ok(match name {
            "make" => Task::Make { sheet: filter.bytes(), root: root.into(), list },
            "gate" => Task::Gate { list, text: filter.text, work },
            path => Task::Solve { sheet: fs::read(path)?, work, out: vec![0; LENGTH_LIMIT] },
        })
    }

    /// The second program's answer, and for how many things.
    pub fn second(&mut self) -> (String, u64) {
        match self {
            Task::Solve { sheet, work, out } => {
                let solved = Second.solve(sheet, SECOND_BUDGET, work, out);
                (line(&solved, out), solved.trials)
            }
            Task::Make { sheet, root, list } => {
                let made = Second.make(sheet, *root, everyday::N as u64, list);
                (format!("{} {}", made.number, made.length), made.length.into())
            }
            Task::Gate { list, text, work } => {
                (Second.gate(list, text, everyday::KEY, work).to_string(), 1)
            }
        }
    }

    /// The same for the proved library, which passes over alike letters and takes any budget.
    fn call(&self) -> Call {
        let read = |name, bytes: &[u8]| Buffer::new(name, bytes.to_vec());
        let work = Buffer::lent("workspace", 8 * WORK);
        match self {
            Task::Solve { sheet, out, .. } => {
                let buffers = vec![read("sheet", sheet), work, Buffer::lent("output", out.len())];
                Call::new(Name::Solve, &[("budget", u64::MAX)], buffers)
            }
            Task::Make { sheet, root, list } => {
                let buffers = vec![read("sheet", sheet), Buffer::lent("list", list.len())];
                let numbers = [("row", *root), ("length", everyday::N as u64)];
                Call::new(Name::Make, &numbers, buffers)
            }
            Task::Gate { list, text, .. } => {
                let (list, text) = (read("list", list), read("text", text));
                let buffers = vec![list, text, read("word", everyday::KEY), work];
                Call::new(Name::Gate, &[], buffers)
            }
        }
    }
}

/// A table of every sheet of the folder that is neither a key nor faulty, then of the everyday filter's list.
pub fn bench(folder: &Path) -> Result<(), String> {
    let mut tasks = sheets(folder).map_err(|error| error.to_string())?;
    tasks.extend(["make".into(), "gate".into()]);
    println!(
        "{:<20} {:<7} {:>12} {:>10} {:>15} {:>13} {:>10}  answer",
        "task", "program", "trials", "seconds", "trials/second", "instructions", "a trial"
    );
    for path in tasks {
        let task = Task::new(&path.to_string_lossy()).map_err(|error| error.to_string())?;
        tell(&path, "proved", proved(&task)?);
        tell(&path, "second", second(&path, task));
    }
    println!("make: a list of n = {} over 32 rows, each byte as a trial", everyday::N);
    println!("gate: a word put to that list, each word as a trial");
    if Command::new("valgrind").arg("--version").output().is_err() {
        println!("instructions are counted where valgrind is installed");
    }
    Ok(())
}

/// One row of the table.
fn tell(path: &Path, program: &str, measure: Measure) {
    let Measure { answer, things, seconds, instructions } = measure;
    let total = instructions.map_or("-".into(), |count| count.to_string());
    let each = instructions.map(|count| count as f64 / things as f64);
    println!(
        "{:<20} {program:<7} {things:>12} {seconds:>10.6} {:>15.0} {total:>13} {:>10}  {answer}",
        path.file_stem().unwrap_or_default().to_string_lossy(),
        things as f64 / seconds,
        each.map_or("-".into(), |each| format!("{each:.1}")),
    );
}

fn proved(task: &Task) -> Result<Measure, String> {
    let call = task.call();
    let mut proved = Proved::start()?;
    let first = proved.repeat(&call, 2)?;
    let times = 2 * ENOUGH.as_nanos() as u64 / first.nanoseconds.max(1);
    let times = times.clamp(1, 1_000_000) + 1;
    let timed = proved.repeat(&call, times)?;
    let numbers = &first.reply.answer;
    let (answer, things) = match call.name {
        Name::Solve => {
            let solved = Solved::walked(numbers[0] as u32, numbers[3] as usize, numbers[4]);
            (line(&solved, &first.reply.buffers[2]), solved.trials)
        }
        Name::Make => (format!("{} {}", numbers[0], numbers[3]), numbers[3]),
        _ => (numbers[0].to_string(), 1),
    };
    let seconds = timed.nanoseconds as f64 / 1e9 / times as f64;
    // A second call beside the first one: lending and telling are in both.
    let one = |times: u64| counted(&[RUN[1]], &message(&call, times));
    let instructions = one(2).zip(one(1)).and_then(|(two, one)| two.checked_sub(one));
    Ok(Measure { answer, things, seconds, instructions })
}

fn second(path: &Path, mut task: Task) -> Measure {
    let (answer, things) = task.second();
    let start = Instant::now();
    let mut calls = 0;
    while calls == 0 || start.elapsed() < ENOUGH {
        task.second();
        calls += 1;
    }
    let seconds = start.elapsed().as_secs_f64() / f64::from(calls);
    let (path, here) = (path.to_string_lossy(), env::current_exe().unwrap_or_default());
    let here = here.to_string_lossy();
    let run = |times: &str| counted(&[&*here, "call", &*path, times], &[]);
    let instructions = run("1").zip(run("0")).and_then(|(one, none)| one.checked_sub(none));
    Measure { answer, things, seconds, instructions }
}

/// The sheets of the folder but for the keys and the faulty ones, by name.
fn sheets(folder: &Path) -> io::Result<Vec<PathBuf>> {
    let named: Vec<_> = keys().into_iter().chain(faulty()).map(|key| key.name).collect();
    let is_named = |path: &Path| named.iter().any(|name| path.file_stem() == Some(name.as_ref()));
    let mut paths = Vec::new();
    for entry in fs::read_dir(folder)? {
        let path = entry?.path();
        if path.extension().is_some_and(|extension| extension == "sheet") && !is_named(&path) {
            paths.push(path);
        }
    }
    paths.sort();
    Ok(paths)
}

/// Instructions of a whole run of the program on that input.
fn counted(program: &[&str], input: &[u8]) -> Option<u64> {
    let mut process = Command::new("valgrind")
        .args(["--tool=callgrind", "--callgrind-out-file=/dev/null"])
        .args(program)
        .stdin(Stdio::piped())
        .stdout(Stdio::null())
        .stderr(Stdio::piped())
        .spawn()
        .ok()?;
    process.stdin.take()?.write_all(input).ok()?;
    let output = process.wait_with_output().ok()?;
    let said = String::from_utf8_lossy(&output.stderr).into_owned();
    let (_, count) = said.split_once("Collected :")?;
    count.split_whitespace().next()?.parse().ok()
}
