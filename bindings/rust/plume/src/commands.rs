//! What each command does. Each answers the status that the program ends with.

use crate::edits::{self, Word};
use crate::fault::{Answer, Fault};
use crate::making::{self, make, Said};
use crate::number;
use crate::options::Options;
use crate::output::{self, Progress, Target};
use crate::ramp::{name_of, Ramp, Stops};
use crate::read::{self, Source};
use crate::report;
use crate::sheet::Way;
use crate::show;
use crate::write::{Format, Piece};
use guineaplume::slices::Kind;

/// Does something to each file; a bad one does not stop the others. The answer is the highest status.
fn each(files: &[String], bytes: bool, mut act: impl FnMut(&Source) -> Answer<u8>) -> Answer<u8> {
    if files.is_empty() {
        return Err(Fault::usage("a file is to be named; '-' is standard input"));
    }
    let progress = Progress::new(files.len());
    let mut status = 0;
    for (done, file) in files.iter().enumerate() {
        progress.at(done, file);
        let read = read::read(file, bytes);
        progress.clear();
        status = status.max(read.and_then(|source| act(&source)).unwrap_or_else(|fault| {
            eprintln!("{fault}");
            fault.status
        }));
    }
    Ok(status)
}

/// `flatten FILE ..`
pub fn flatten(options: &Options) -> Answer<u8> {
    let mut target = Target::new(options.out.as_deref(), options.words.len())?;
    each(&options.words, options.bytes, |source| listed(source, &[], options, &mut target))
}

/// `edit FILE EDIT ..`
pub fn edit(options: &Options) -> Answer<u8> {
    let (file, words) = options.words.split_first().ok_or_else(|| Fault::usage("a file is to be named, then edits"))?;
    let edits = edits::read(words)?;
    if edits.is_empty() {
        return Err(Fault::usage("an edit is to be named: color 3 #1a2b3c, move 3 0.42, add 0.42 #1a2b3c, remove 3"));
    }
    let mut target = Target::new(options.out.as_deref(), 1)?;
    each(std::slice::from_ref(file), options.bytes, |source| listed(source, &edits, options, &mut target))
}

/// Flattens, writes, and says what came of it.
fn listed(source: &Source, edits: &[Word], options: &Options, target: &mut Target) -> Answer<u8> {
    let format = options.format();
    let made = make(source, edits, options)?;
    let said = Said::of(&source.file, &made.ramp, &made.list, made.threshold, options)?;
    let piece = Piece {
        file: &source.file,
        name: &source.name,
        kind: Kind::Linear,
        stops: made.list.clone(),
        evaluations: made.evaluations,
        domain: options.domain,
    };
    let (bytes, notes) = match (format, printed(source, edits, options)) {
        (Format::Bits, Some(printed)) => (printed, Vec::new()),
        _ => piece.written(format)?,
    };
    target.write(&source.file, &source.name, format.ending(), &bytes)?;
    for note in making::notes(source, options).iter().chain(&notes) {
        output::say(note);
    }
    output::say(&format!("{}: {}", source.file, said.line(&made)));
    Ok(said.status())
}

/// What the tool `flatten` prints, where the same is asked of it.
fn printed(source: &Source, edits: &[Word], options: &Options) -> Option<Vec<u8>> {
    let is_plain = edits.is_empty() && options.domain.is_none() && !options.names_threshold();
    let text = source.text.as_ref().filter(|_| is_plain && options.way() == Way::Published)?;
    let printed = guineaplume::desk(text);
    printed.starts_with(b"stops\t").then_some(printed)
}

/// `convert FILE .. --to FORMAT`: a ramp that is mixed linearly is kept as it is, another is flattened.
pub fn convert(options: &Options) -> Answer<u8> {
    let mut target = Target::new(options.out.as_deref(), options.words.len())?;
    each(&options.words, options.bytes, |source| converted(source, options, &mut target))
}

fn converted(source: &Source, options: &Options, target: &mut Target) -> Answer<u8> {
    let format = options.format();
    let keeps_kind = format == Format::Text && !matches!(source.ramp, Ramp::Gimp(_));
    let kept = if keeps_kind { Some(source.ramp.stops()) } else { source.ramp.as_list() };
    let stops = match kept.filter(|_| source.edit.is_none()) {
        Some(stops) => stops,
        None => {
            let why = if source.edit.is_some() { "it is edited" } else { "it is not mixed linearly" };
            output::say(&format!("{}: {why}, so it is flattened", source.file));
            return listed(source, &[], options, target);
        }
    };
    let kind = if keeps_kind { source.ramp.kind() } else { Kind::Linear };
    let (file, name, domain) = (source.file.as_str(), source.name.as_str(), options.domain);
    let (bytes, notes) = Piece { file, name, kind, stops, evaluations: 0, domain }.written(format)?;
    target.write(file, name, format.ending(), &bytes)?;
    source.notes.iter().chain(&notes).for_each(|note| output::say(note));
    output::say(&format!("{file}: {}, kept as they are", source.ramp.count()));
    Ok(0)
}

/// `check FILE ..`
pub fn check(options: &Options) -> Answer<u8> {
    each(&options.words, options.bytes, |source| {
        let (min, max) = source.ramp.gradient().domain();
        let kind = name_of(source.ramp.kind());
        let ends = (number::short(min), number::short(max));
        source.notes.iter().for_each(|note| output::say(note));
        output::print(
            format!("{}: {kind}, {}, {} to {}: fine\n", source.file, source.ramp.count(), ends.0, ends.1).as_bytes(),
        )?;
        Ok(0)
    })
}

/// The ramp, and the list where one is named.
fn pair(options: &Options) -> Answer<(Source, Option<Stops>)> {
    let (ramp, list) = match options.words.as_slice() {
        [ramp] => (ramp, None),
        [ramp, list] => (ramp, Some(list)),
        _ => return Err(Fault::usage("a ramp is to be named, and perhaps its list")),
    };
    let source = read::read(ramp, options.bytes)?;
    let read = match list {
        Some(list) => read::read(list, options.bytes)?,
        None => return Ok((source, None)),
    };
    let not_linear = || Fault::misused(&read.file, "a list is mixed linearly, and this is not");
    let stops = read.ramp.as_list().ok_or_else(not_linear)?;
    Ok((source, Some(stops)))
}

/// The ramp, with the file's own edit made.
fn edited(source: &Source, options: &Options) -> Answer<Ramp> {
    if source.edit.is_none() {
        return Ok(source.ramp.clone());
    }
    make(source, &[], options).map(|made| made.ramp)
}

/// `judge RAMP LIST`
pub fn judge(options: &Options) -> Answer<u8> {
    let (source, list) = pair(options)?;
    let list = list.ok_or_else(|| Fault::usage("a list is to be named after the ramp"))?;
    let threshold = options.threshold(source.threshold);
    let ramp = edited(&source, options)?;
    let said = Said::of(&source.file, &ramp, &list, threshold, options)?;
    making::notes(&source, options).iter().for_each(|note| output::say(note));
    let words = if said.verdict.is_yes() { "yes".into() } else { format!("no: {}", said.verdict) };
    output::print(format!("{words}\n").as_bytes())?;
    Ok(u8::from(!said.verdict.is_yes()))
}

/// `apart RAMP [LIST]`
pub fn apart(options: &Options) -> Answer<u8> {
    let (source, list) = pair(options)?;
    let (ramp, list) = match list {
        Some(list) => (edited(&source, options)?, list),
        None => {
            let made = make(&source, &[], options)?;
            (made.ramp, made.list)
        }
    };
    let said = Said::of(&source.file, &ramp, &list, options.threshold(source.threshold), options)?;
    making::notes(&source, options).iter().for_each(|note| output::say(note));
    output::print(report::depths(&said.apart).as_bytes())?;
    output::say(&format!("{}: {}", source.file, report::counted(&said.apart)));
    Ok(u8::from(said.apart.has_merged()))
}

/// `show RAMP [LIST]`
pub fn show(options: &Options) -> Answer<u8> {
    let (source, list) = pair(options)?;
    let made = make(&source, &edits::read(&options.edits)?, options)?;
    let is_own = list.is_none();
    let list = list.unwrap_or_else(|| made.list.clone());
    let said = Said::of(&source.file, &made.ramp, &list, made.threshold, options)?;
    let sort = if is_own {
        report::sort(made.way, made.threshold)
    } else {
        format!("{}, threshold {}", options.words[1], made.threshold)
    };
    let picture = show::picture(&source.name, &made, &list, &said, &sort);
    let mut target = Target::new(options.out.as_deref(), 1)?;
    target.write(&source.file, &source.name, "svg", picture.as_bytes())?;
    making::notes(&source, options).iter().for_each(|note| output::say(note));
    let line = report::line(&made.ramp.count(), list.len(), &said.apart, said.verdict);
    output::say(&format!("{}: {line}", source.file));
    Ok(said.status())
}
