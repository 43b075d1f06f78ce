//! plume: colour ramps for editors and for scripts. Ordinary Rust over the proved library: what a ramp's colours, lists,
//! verdicts and refusals are is asked of it, and how they are read from files, written and drawn is done here.

mod apart;
mod color;
mod commands;
mod edits;
mod fault;
mod help;
mod making;
mod number;
mod options;
mod output;
mod ramp;
mod read;
mod report;
mod sheet;
mod show;
mod write;

use fault::{Answer, Fault};
use options::Options;
use std::process::ExitCode;

type Act = fn(&Options) -> Answer<u8>;

const LISTING: [&str; 7] = ["--threshold", "--hold", "--published", "--to", "--out", "--domain", "--bytes"];
const ASKING: [&str; 6] = ["--threshold", "--hold", "--published", "--step", "--depths", "--bytes"];
const SHOWING: [&str; 8] = ["--threshold", "--hold", "--published", "--step", "--depths", "--bytes", "--out", "--edit"];

/// Each command, the options that it takes, and what it does.
const COMMANDS: [(&str, &[&str], Act); 7] = [
    ("flatten", &LISTING, commands::flatten),
    ("edit", &LISTING, commands::edit),
    ("convert", &LISTING, commands::convert),
    ("judge", &["--threshold", "--bytes"], commands::judge),
    ("apart", &ASKING, commands::apart),
    ("show", &SHOWING, commands::show),
    ("check", &["--bytes"], commands::check),
];

fn main() -> ExitCode {
    let words: Vec<String> = std::env::args_os().skip(1).map(|word| word.to_string_lossy().into_owned()).collect();
    let status = run(&words).unwrap_or_else(|fault| {
        eprintln!("{fault}");
        fault.status
    });
    ExitCode::from(status)
}

fn run(words: &[String]) -> Answer<u8> {
    let unnamed = || Fault::usage("a command is to be named; see plume --help");
    let (first, rest) = words.split_first().ok_or_else(unnamed)?;
    match (first.as_str(), rest) {
        ("--version" | "-V", _) => output::print(format!("plume {}\n", version()).as_bytes()).map(|()| 0),
        ("--help" | "-h" | "help", []) => output::print(help::ALL.as_bytes()).map(|()| 0),
        ("help", [command, ..]) => help(command),
        (command, rest) if rest.iter().any(|word| word == "--help" || word == "-h") => help(command),
        (command, rest) => {
            let (name, takes, act) =
                COMMANDS.iter().find(|(name, ..)| *name == command).ok_or_else(|| unknown(command))?;
            act(&Options::read(name, takes, rest)?)
        }
    }
}

fn help(command: &str) -> Answer<u8> {
    let text = help::of(command).ok_or_else(|| unknown(command))?;
    output::print(text.as_bytes()).map(|()| 0)
}

fn unknown(command: &str) -> Fault {
    let names = COMMANDS.map(|(name, ..)| name).join(", ");
    Fault::usage(format!("there is no command '{command}': there are {names} and help"))
}

/// The library's, which is the program's too.
fn version() -> String {
    let number = guineaplume::slices::version();
    format!("{}.{}.{}", number / 1_000_000, number / 1000 % 1000, number % 1000)
}
