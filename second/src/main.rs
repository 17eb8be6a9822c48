//! The second program of the trial: it says on its own what the calls of a
//! trial script must answer, and makes random scripts for both programs.
//!
//! - `second run < script` prints what a script must print;
//! - `second script SEED [small|large]` writes a random script;
//! - `second count FIRST N [small|large]` runs the scripts of N seeds and
//!   prints how often each kind of answer was met; its exit status is 1 if
//!   some kind was never met.

mod files;
mod machine;
mod random;
mod script;
mod session;

use std::collections::BTreeMap;
use std::io::{self, Read, Write};
use std::process::ExitCode;

use random::Size;
use script::Trial;

const USAGE: &str = "usage: second run < script
       second script SEED [small|large]
       second count FIRST N [small|large]";

/// Prints what the script on standard input must print.
fn run() -> io::Result<()> {
    let mut script = Vec::new();
    io::stdin().read_to_end(&mut script)?;
    let printed = Trial::new().run(&script);
    io::stdout().write_all(printed.as_bytes())
}

/// Runs the scripts of some seeds and prints how often each kind was met;
/// answers whether all were.
fn count(first: u64, seeds: u64, size: Size) -> io::Result<bool> {
    let mut met: BTreeMap<String, u64> = BTreeMap::new();
    for seed in first..first.saturating_add(seeds) {
        let mut trial = Trial::new();
        trial.run(&random::script(seed, size));
        for (kind, times) in trial.met {
            *met.entry(kind).or_insert(0) += times;
        }
    }
    let mut all = true;
    let mut out = io::stdout().lock();
    for kind in script::kinds() {
        let times = met.get(&kind).copied().unwrap_or(0);
        all &= times > 0;
        writeln!(out, "{kind} {times}")?;
    }
    Ok(all)
}

/// The size named by an optional last argument.
fn size(name: Option<&str>) -> Option<Size> {
    match name {
        None | Some("small") => Some(Size::Small),
        Some("large") => Some(Size::Large),
        Some(_) => None,
    }
}

/// Carries out the command; `None` if it isn't one.
fn command(arguments: &[&str]) -> Option<io::Result<ExitCode>> {
    match arguments {
        ["run"] => Some(run().map(|()| ExitCode::SUCCESS)),
        ["script", seed, rest @ ..] if rest.len() <= 1 => {
            let script = random::script(seed.parse().ok()?, size(rest.first().copied())?);
            let written = io::stdout().write_all(&script);
            Some(written.map(|()| ExitCode::SUCCESS))
        }
        ["count", first, seeds, rest @ ..] if rest.len() <= 1 => {
            let size = size(rest.first().copied())?;
            let counted = count(first.parse().ok()?, seeds.parse().ok()?, size);
            Some(counted.map(|all| ExitCode::from(u8::from(!all))))
        }
        _ => None,
    }
}

fn main() -> ExitCode {
    let arguments: Vec<String> = std::env::args().skip(1).collect();
    let arguments: Vec<&str> = arguments.iter().map(String::as_str).collect();
    match command(&arguments) {
        Some(Ok(code)) => code,
        Some(Err(error)) => {
            eprintln!("second: {error}");
            ExitCode::from(2)
        }
        None => {
            eprintln!("{USAGE}");
            ExitCode::from(2)
        }
    }
}
