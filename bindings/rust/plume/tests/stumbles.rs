//! What people stumble over, each told by its own words, with file, line and status.

mod common;
use common::{folder, plume, plume_of};

const GOOD: &str = "kind\tlinear\nstop\t0\t0\t0\t0\t1\nstop\t1\t1\t1\t1\t1\n";

/// A text on standard input is checked.
#[track_caller]
fn check(text: &[u8], status: i32, words: &[&str]) {
    plume_of(&["check", "-"], text).ends(status, words);
}

#[test]
fn a_good_text_is_read_with_either_end_of_line() {
    check(GOOD.as_bytes(), 0, &[]);
    check(GOOD.replace('\n', "\r\n").as_bytes(), 0, &[]);
    check(GOOD.trim_end().as_bytes(), 0, &[]);
}

#[test]
fn the_tools_text_says_what_is_wrong() {
    let five = "expected 'stop' and 5 numbers parted by tabs; ";
    let with = |from: &str, to: &str| GOOD.replacen(from, to, 1).into_bytes();
    check(
        &[b"\xef\xbb\xbf", GOOD.as_bytes()].concat(),
        4,
        &["standard input:1: ", "a byte-order mark stands before it"],
    );
    check(&with("kind", "# sea\nkind"), 4, &[":1: ", "comments are not read: found '# sea'"]);
    check(&with("stop\t1", "stop\t0,5"), 4, &[":3: ", five, "a number has a point, not a comma: found '0,5'"]);
    check(&with("stop\t1\t1\t1", "stop 1 1 1"), 4, &[":3: ", five]);
    check(b"kind\tlinear\nstop 0 0 0 0 1\n", 4, &[":2: ", five, "found spaces where tabs belong: 'stop 0 0 0 0 1'"]);
    check(b"kind\tlinear\nstop\t0\t0\t0\t0\n", 4, &[":2: ", five, "found 4: the alpha is missing"]);
    check(GOOD.replace('\n', "\r").as_bytes(), 4, &[":1: ", "carriage return"]);
    check(&with("\n", "\n\n"), 4, &[":2: ", "found an empty line"]);
    check(&with("stop\t1\t1", "stop\t1\t97%"), 4, &[":3: ", "without a percent sign: found '97%'"]);
    check(&with("stop\t1\t1", "stop\t1\t1e-3"), 4, &[":3: ", "a number has no exponent: found '1e-3'"]);
    check(&with("linear", "round"), 4, &[":1: ", "one of linear, smoothstep, sharp, basis, catmull-rom"]);
    check(b"", 4, &["the file is empty"]);
    check(b"\xff\xfek\0i\0n\0d\0", 4, &["this is UTF-16"]);
    check(b"\x89PNG\r\n", 4, &["standard input:1: expected a GIMP gradient"]);
}

#[test]
fn channels_of_bytes_are_warned_of_or_taken() {
    let text = b"kind\tlinear\nstop\t0\t0\t0\t128\t1\nstop\t1\t255\t255\t255\t1\n";
    check(text, 0, &["standard input:2: a channel is 128, and counts as 1: if channels run to 255, say --bytes"]);
    let ran = plume_of(&["flatten", "-", "--bytes", "--to", "gdal"], text);
    assert_eq!(ran.ends(0, &["alpha is taken as 0..1"]).text(), "0 0 0 128 255\n1 255 255 255 255\n");
}

#[test]
fn refusals_have_their_number_and_line() {
    plume(&["flatten", "examples/refused.tsv"])
        .ends(3, &["plume: examples/refused.tsv:4: refused 3: ", "0.25 comes after 0.5"]);
    check(b"kind\tlinear\nstop\t0\t0\t0\t0\t1\n", 3, &["refused 1: ", "the file has 1"]);
    // a curved segment is read; its middle must not lie outside
    check(b"GIMP Gradient\nName: x\n1\n0 0.5 1 0 0 0 1 1 1 1 1 1 0\n", 0, &[]);
    check(b"GIMP Gradient\nName: x\n1\n0 1.5 1 0 0 0 1 1 1 1 1 1 0\n", 3, &["standard input:4: refused 16: "]);
    let edited = [GOOD, "edit\t2\t0\t0\t0\t1\n"].concat();
    plume_of(&["flatten", "-"], edited.as_bytes()).ends(3, &["standard input:4: refused 6: "]);
    check(b"GIMP Palette\n", 3, &["standard input:1: refused 11: "]);
}

/// A GIMP gradient of such segments: colours, blending and colouring.
fn gimp(segments: &[&str]) -> String {
    let place = |i: usize| i as f64 / segments.len() as f64;
    let line = |(i, said): (usize, &&str)| {
        format!("{} {} {} {said}\n", place(i), (place(i) + place(i + 1)) / 2.0, place(i + 1))
    };
    let lines: String = segments.iter().enumerate().map(line).collect();
    format!("GIMP Gradient\nName: hues\n{}\n{lines}", segments.len())
}

#[test]
fn what_gimp_paints_otherwise_is_told() {
    let told = |segments: &[&str]| plume_of(&["check", "-"], gimp(segments).as_bytes()).ends(0, &[]).said.clone();
    let grey = "0.819999 0.82 0.82 1 1 0 0 1 0 1";
    let wood = "0.78 0.4914 0.2028 1 0.903086 0.568944 0.234802 1 4 1";
    let brushed = "0.49807 0.508364 0.477482 1 0.529458 0.539017 0.51034 1 0 1";
    assert!(told(&[grey]).contains(
        "standard input:4: coloured by hue, and one end is nearly grey: GIMP 2.10 takes that end for a grey, and paints \
         other colours here\n"
    ));
    let one = "coloured by hue between colours of nearly one hue: GIMP 2.10";
    assert!(told(&[wood]).contains(&format!("input:4: {one} hardly turns here, and this ramp goes once round\n")));
    assert!(told(&[brushed]).contains(&format!("input:4: {one} goes once round here, and this ramp hardly turns\n")));
    let outside = "coloured by hue, with a channel outside 0..1: GIMP 2.10 keeps it, and this ramp is clamped\n";
    assert!(told(&["0 0 0 1 1.5 0 0.2 1 5 2"]).contains(&format!("input:4: {outside}")));
    // the other way round the same two colours are in the other order
    let back = "0.529458 0.539017 0.51034 1 0.49807 0.508364 0.477482 1 0 2";
    assert!(told(&[back]).contains(&format!("{one} goes once round here")));
    // GIMP's hues differ where no f32 does
    let close = "0.5 0.25 0 1 0.5 0.25000000001 0 1 0 1";
    assert!(told(&[close]).contains(&format!("{one} hardly turns here")));
    // each sort is told once, at its first segment
    let said = told(&["0 0 0 1 1 1 1 1 0 0", grey, wood, grey, grey]);
    assert!(said.contains("input:5: coloured by hue, and one end") && said.contains("here (and 2 segments more)\n"));
    assert!(said.contains("input:6: coloured by hue between") && !said.contains("input:7"));
}

#[test]
fn what_gimp_paints_alike_is_not_told() {
    for quiet in [
        // equal hues go the full turn everywhere
        "0.5 0.25 0 1 0.5 0.25 0 1 0 1",
        "1 0 0 1 0.3 0 0 1 0 2",
        // a grey, and a near-grey that is red already
        "0.82 0.82 0.82 1 1 0 0.5 1 0 1",
        "1 0.999999 0.999999 1 0.2 0 0.7 1 0 1",
        // two near-greys stay greys
        "0.819999 0.82 0.82 1 0.88 0.88 0.879999 1 0 1",
        // in RGB; in a step, which shows the ends alone
        "0 0 0 1 1.5 0 0.2 1 0 0",
        "0.819999 0.82 0.82 1 1 0 0 1 0 0",
        "0.819999 0.82 0.82 1 1 0 0 1 5 1",
        // an end that names the foreground is black
        "0.819999 0.82 0.82 1 1 0 0.5 1 0 1 1 0",
    ] {
        let ran = plume_of(&["check", "-"], gimp(&[quiet]).as_bytes());
        assert!(!ran.ends(0, &[]).said.contains("by hue"), "{quiet}: {}", ran.said);
    }
}

#[test]
fn colour_tables_say_what_is_wrong() {
    check(b"0 0 0 0 1 255 255 255\n1 0 0 0 2 9 9 9\nB 0 0 0\n", 0, &[]);
    check(b"0 0/0/0 0.5 9/9/9\n0.6 9/9/9 1 255/255/255\n", 4, &[":2: ", "expected a slice from 0.5 on", "found 0.6"]);
    check(b"# COLOR_MODEL = HSV\n0 0 0 0 1 255 1 1\n", 4, &[":1: ", "expected colours of the model RGB; found 'HSV'"]);
    check(b"0 chartreuse 1 white\n", 4, &[":1: ", "no such name of a colour is known"]);
    check(b"0 0 0 300 1 255 255 255\n", 4, &[":1: ", "expected channels from 0 to 255; found 300"]);
    check(b"0 0.1 0.2 0.3 1\n", 4, &[":1: ", "a stop of the tool's text has 'stop' before it"]);
}

#[test]
fn csv_says_what_is_wrong() {
    check(b"\xef\xbb\xbfposition,r,g,b\r\n0,0,0,0\r\n1,1,1,1\r\n", 0, &[]);
    check(b"position\tcolor\n0\t#000000\n1\t#ffffff80\n", 0, &[]);
    check(
        b"position;r;g;b\n0;0;0;0,5\n1;1;1;1\n",
        4,
        &[":2: expected a number; a number has a point, not a comma: found '0,5'"],
    );
    check(b"position,r,g,b\n0,0,0,0,5\n", 4, &[":2: expected 4 fields, as in the header; found 5"]);
    check(b"position,r,g\n0,0,0\n", 4, &[":1: expected a header"]);
    check(b"r,g,b\n0,0,0\n", 4, &[":1: ", "found no position"]);
    check(b"position,color\n0,blue\n", 4, &[":2: expected '#rrggbb' or '#rrggbbaa'; found 'blue'"]);
    check(b"0,0,0,0\n1,1,1,1\n", 4, &[":1: expected a header"]);
    check(b"position,r,g,b\n0,0,0,0\n# deep\n1,1,1,1\n", 4, &[":3: comments are not read"]);
}

#[test]
fn files_and_words_that_are_not_there() {
    plume(&["check", "nowhere.tsv"]).ends(2, &["plume: nowhere.tsv: "]);
    plume(&["check", "examples"]).ends(2, &["plume: examples: "]);
    plume(&["flatten"]).ends(2, &["a file is to be named"]);
    plume(&["flatten", "examples/depths.tsv", "--step", "1"]).ends(2, &["flatten takes no --step"]);
    plume(&["flatten", "examples/depths.tsv", "--to", "png"]).ends(2, &["--to wants one of text, bits"]);
    plume(&["flatten", "examples/depths.tsv", "-t"]).ends(2, &["-t lacks what comes after it"]);
    plume(&["flatten", "examples/depths.tsv", "-t", "0,007"]).ends(2, &["--threshold wants a number; found '0,007'"]);
    plume(&["flatten", "examples/depths.tsv", "--domain", "1", "0"])
        .ends(2, &["--domain wants the lesser number first"]);
    plume(&["flatten", "examples/depths.tsv", "examples/shelf.tsv"]).ends(2, &["several files need a folder"]);
    plume(&["flatten", "examples/depths.tsv", "-o", "/nowhere/at/all.cpt"]).ends(2, &["/nowhere/at/all.cpt"]);
    plume(&["frob"]).ends(2, &["there is no command 'frob'"]);
    plume(&[]).ends(2, &["plume --help"]);
}

#[test]
fn a_file_is_not_written_over_itself() {
    let file = folder("itself").join("sea.tsv");
    std::fs::write(&file, GOOD).unwrap();
    let name = file.to_str().unwrap();
    plume(&["flatten", name, "-o", name]).ends(2, &["this would be written over itself"]);
    assert_eq!(std::fs::read_to_string(&file).unwrap(), GOOD);
}
