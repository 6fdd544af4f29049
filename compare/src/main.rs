//! The commands of the comparison.

use std::env;
use std::fs;
use std::io::{self, Read};
use std::ops::Range;
use std::path::Path;
use std::process::ExitCode;

use compare::bench::{bench, Task};
use compare::check::{check, check_alike, Report};
use compare::compare::Difference;
use compare::guards::guards;
use compare::keys::{kept, BUDGET};
use compare::program::answer;
use compare::proved::Proved;
use compare::second::sheet::SHEET_LIMIT;
use compare::selfcheck::selfcheck;

const USAGE: &str =
    "of the proved library, from the top of the repository, with target/calls built:
compare check SEED COUNT [SECONDS]   the proved library against the second program
compare alike SEED COUNT [SECONDS]   the same on counts past every plain walk
compare case check|alike SEED CASE   one case of these again
compare guards                       touches beside a buffer, each to be seen
compare bench FOLDER                 seconds and instructions: sheets of the folder, maker, gate
of the second program alone:
compare self SEED COUNT              the second program against brute force
compare solve                        one line for the sheet on standard input
compare call TASK TIMES              calls it: SHEET, make or gate, as bench does
compare write-keys FOLDER            the sheets of the keys, k1.sheet to k11.sheet, and others that are kept";

fn main() -> ExitCode {
    let arguments: Vec<String> = env::args().skip(1).collect();
    let words: Vec<&str> = arguments.iter().map(String::as_str).collect();
    let result = match words[..] {
        [sort @ ("check" | "alike"), seed, count] => run_cases(sort, seed, count, None),
        [sort @ ("check" | "alike"), seed, count, seconds] => {
            run_cases(sort, seed, count, Some(seconds))
        }
        ["case", sort @ ("check" | "alike"), seed, case] => run_case(sort, seed, case),
        ["guards"] => run_guards(),
        ["bench", folder] => bench(Path::new(folder)),
        ["self", seed, count] => run_self(seed, count),
        ["solve"] => run_solve(),
        ["call", task, times] => run_calls(task, times),
        ["write-keys", folder] => write_keys(folder),
        _ => Err(USAGE.to_string()),
    };
    match result {
        Ok(()) => ExitCode::SUCCESS,
        Err(text) => {
            println!("{text}");
            ExitCode::FAILURE
        }
    }
}

fn number(word: &str) -> Result<u64, String> {
    word.parse().map_err(|_| format!("not a number: {word}\n{USAGE}"))
}

fn run_cases(sort: &str, seed: &str, count: &str, seconds: Option<&str>) -> Result<(), String> {
    compared(sort, number(seed)?, 0..number(count)?, seconds.map(number).transpose()?)
}

fn run_case(sort: &str, seed: &str, case: &str) -> Result<(), String> {
    let case = number(case)?;
    compared(sort, number(seed)?, case..case + 1, None)
}

fn compared(sort: &str, seed: u64, cases: Range<u64>, seconds: Option<u64>) -> Result<(), String> {
    let compared = if sort == "check" { check } else { check_alike };
    report(compared(&mut Proved::start()?, seed, cases, seconds))
}

fn report(result: Result<Report, Difference>) -> Result<(), String> {
    let Report { cases, tally } = result.map_err(|Difference(text)| text)?;
    print!("{tally}");
    println!("compare: {cases} cases, {} calls, 0 differences", tally.calls());
    Ok(())
}

fn run_guards() -> Result<(), String> {
    println!("compare: {} touches, each beside a buffer seen", guards()?);
    Ok(())
}

fn run_self(seed: &str, count: &str) -> Result<(), String> {
    let agreed = selfcheck(number(seed)?, number(count)?)?;
    print!("{agreed}");
    println!("compare self: {} cases, 0 differences", agreed.cases);
    Ok(())
}

fn run_solve() -> Result<(), String> {
    let mut sheet = Vec::new();
    // One byte past the longest sheet is enough to refuse it.
    let most = SHEET_LIMIT as u64 + 1;
    io::stdin().take(most).read_to_end(&mut sheet).map_err(|error| error.to_string())?;
    println!("{}", answer(&sheet, BUDGET));
    Ok(())
}

fn run_calls(task: &str, times: &str) -> Result<(), String> {
    let mut task = Task::new(task).map_err(|error| error.to_string())?;
    for _ in 0..number(times)? {
        task.second();
    }
    Ok(())
}

fn write_keys(folder: &str) -> Result<(), String> {
    for key in kept() {
        let path = Path::new(folder).join(format!("{}.sheet", key.name));
        fs::write(path, key.draft.bytes()).map_err(|error| error.to_string())?;
    }
    Ok(())
}
