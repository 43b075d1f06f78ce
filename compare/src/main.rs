//! Compares the library with the published Rust, and times both.

// the exports, declared once in the repository; not all of them are compared here

mod edited;
mod gimp;
mod harness;
mod judged;
mod leaves;
mod listed;
mod painted;
mod stored;
mod timed;

use edited::edits;
use edited::refresh;
use edited::sheets;
use edited::typing;
use gimp::counts;
use gimp::files;
use gimp::numerals;
use gimp::saved;
use gimp::texts;
use gimp::torn;
use gimp::written;
use harness::options::Options;
use harness::report;
use harness::report::Tally;
use harness::smallest;
use judged::judge;
use judged::lists_apart;
use judged::lists_within;
use judged::merged;
use judged::own_lists;
use judged::word;
use leaves::long_tokens;
use leaves::roots;
use leaves::tokens;
use listed::lists;
use listed::many;
use listed::marks;
use listed::promised;
use listed::sine_lists;
use listed::steps;
use painted::colours;
use painted::curves;
use painted::hues;
use painted::sharp;
use painted::shown;
use painted::sine;
use painted::views;
use std::path::Path;
use std::process::ExitCode;
use stored::sample;
use timed::bench;
use timed::count;

const USAGE: &str = "compare COMMAND [N] [--seed S] [--case I]
  roots tokens long_tokens colours sine waves hues curves sharp texts saved counts torn lists refresh edits marks many promise steps numerals written judge within apart
  sheets views
                     one comparison, of N inputs or at its full size
  all [PERCENT]      every comparison, at its full size or at that part of it
  differences        the smallest inputs of docs/DIFFERENCES.md, with the Rust's answers and ours
  gimp FOLDER [N]    N lists written there as .ggr files (200), for compare/trade/gimp.py
  files FOLDER       the .ggr files in it, as compare/fetch gets them
  saved-files FOLDER the .ggr files in it by the rules for what GIMP saves, each whole and damaged
  bench [TABLE]      times beside the Rust's: root token paint files read flatten growth within apart refresh sheet
  count [TABLE]      instructions in place of times, by valgrind's callgrind
  own [N] [FOLDER]   how many of our own lists are turned down, of N random ramps and of the .ggr files in FOLDER
  word [N] [FOLDER]  lists that keep their word beside the published ones, of N ramps of each sort (2,000) and of those files
  merged [N] [FOLDER] how many lists show two depths as one, published ones and those that keep their word, of the same ramps
  typing             request (x): how much of a fresh flattening a keystroke is, and whether its two figures hold
  shown FILE ..      the colours of .ggr files at 256 points, as text, for compare/trade/gimp_colours.py
  sample FOLDER      the stored answers of the program replay, as FOLDER/stdin and FOLDER/stdout";

type Comparison = (&'static str, fn(&Options) -> Vec<Tally>, u64);

/// Each comparison with its full size.
const COMPARISONS: [Comparison; 27] = [
    ("roots", roots::run, 1 << 32),
    ("tokens", tokens::run, 100_000_000),
    ("long_tokens", long_tokens::run, 100_000_000),
    ("colours", colours::run, 2_000_000),
    ("sine", sine::run, 12_000_000),
    ("waves", sine_lists::run, 100_000),
    ("hues", hues::run, 12_000_000),
    ("curves", curves::run, 12_000_000),
    ("sharp", sharp::run, 1_000_000),
    ("texts", texts::run, 200_000),
    ("saved", saved::run, 400_000),
    ("counts", counts::run, 400_000),
    ("torn", torn::run, 100_000),
    ("lists", lists::run, 20_000),
    ("refresh", refresh::run, 40_000),
    ("edits", edits::run, 20_000),
    ("marks", marks::run, 20_000),
    ("many", many::run, 4_000),
    ("promise", promised::run, 1_000_000),
    ("steps", steps::run, 20_000),
    ("numerals", numerals::numbers, numerals::ALL),
    ("written", written::lists, 100_000),
    ("judge", judge::run, 100_000),
    ("within", lists_within::run, 100_000),
    ("apart", lists_apart::run, 100_000),
    ("sheets", sheets::run, 20_000),
    ("views", views::run, 2_000_000),
];

fn main() -> ExitCode {
    // a panic of the Rust is an answer that is expected now and then
    std::panic::set_hook(Box::new(|_| {}));
    let words: Vec<String> = std::env::args().skip(1).collect();
    match run(&words) {
        Ok(true) => ExitCode::SUCCESS,
        Ok(false) => ExitCode::FAILURE,
        Err(text) => {
            eprintln!("{text}\n{USAGE}");
            ExitCode::from(2)
        }
    }
}

/// Whether nothing differed.
fn run(words: &[String]) -> Result<bool, String> {
    let (command, rest) = words.split_first().ok_or("a command is missing")?;
    if let Some((_, comparison, full)) = COMPARISONS.iter().find(|c| c.0 == command) {
        return Ok(report::summary(&comparison(&Options::read(rest, *full)?)));
    }
    let options = Options::read(rest, 100)?;
    match command.as_str() {
        "all" => Ok(report::summary(&all(&options))),
        "files" => {
            let folder = options.name.as_ref().ok_or("a folder is missing")?;
            Ok(report::summary(&files::run(&options, Path::new(folder))))
        }
        "saved-files" => {
            let folder = options.name.as_ref().ok_or("a folder is missing")?;
            Ok(report::summary(&saved::files(&options, Path::new(folder))))
        }
        "gimp" => {
            let folder = options.name.as_ref().ok_or("a folder is missing")?;
            let options = Options { size: if options.size == 100 { 200 } else { options.size }, ..options.clone() };
            written::files(&options, Path::new(folder)).map_err(|e| e.to_string())?;
            Ok(true)
        }
        "bench" => {
            bench::run(&options);
            Ok(true)
        }
        "count" => count::run(rest),
        "typing" => Ok(typing::run()),
        "own" => Ok(own_lists::run(&Options::read(rest, 100_000)?)),
        "word" => Ok(word::run(&Options::read(rest, 2_000)?)),
        "merged" => Ok(merged::run(&Options::read(rest, 2_000)?)),
        "shown" => {
            shown::run(rest, 256);
            Ok(true)
        }
        "differences" => {
            smallest::run();
            Ok(true)
        }
        "sample" => {
            let folder = options.name.as_ref().ok_or("a folder is missing")?;
            sample::run(&options, Path::new(folder)).map_err(|e| e.to_string())?;
            Ok(true)
        }
        _ => Err(format!("no such command: {command}")),
    }
}

/// Every comparison at so many hundredths of its full size.
fn all(options: &Options) -> Vec<Tally> {
    let part = |full: u64| (full * options.size / 100).max(1);
    COMPARISONS.iter().flat_map(|(_, run, full)| run(&Options { size: part(*full), ..options.clone() })).collect()
}
