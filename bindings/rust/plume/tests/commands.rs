//! What each command answers, says and ends with.

mod common;
use common::{file, folder, plume, plume_of};

#[test]
fn flattening_says_what_came_of_it() {
    plume(&["flatten", "examples/depths.tsv"])
        .ends(0, &["12 stops in, 12 out; ", "Judged: yes.", "its own stops are a list already"]);
    let words = "12 stops in, 6 out; 6 of your stops are farther off than 0.007: 0.0833 (0.011), 0.1667 (0.018), ";
    plume(&["flatten", "examples/depths.tsv", "--published"]).ends(1, &[words, "Judged: no."]);
    let words = "2 pairs of depths became one: 0.389 and 0.3891, 0.4026 and 0.4027. Judged: yes.";
    plume(&["flatten", "examples/lost-band.tsv", "--published"]).ends(1, &["6 stops in, 2 out", words]);
    plume(&["flatten", "examples/lost-band.tsv"]).ends(0, &["6 stops in, 6 out", "Judged: yes."]);
}

#[test]
fn numbers_that_are_taken_otherwise_are_named() {
    plume(&["flatten", "examples/shelf.tsv", "-t", "0.5"]).ends(0, &["the threshold 0.5 is taken as 0.035"]);
    plume(&["flatten", "examples/shelf.tsv", "--hold", "0.02"]).ends(0, &["the hold 0.02 is taken as 0.01"]);
    plume(&["flatten", "examples/shelf.tsv", "--hold", "0.002", "--published"]).ends(2, &["leave --hold out"]);
}

#[test]
fn judge_says_yes_or_no() {
    let list = folder("judge").join("list.bits");
    let name = list.to_str().unwrap();
    plume(&["flatten", "examples/depths.tsv", "--published", "-o", name]).ends(1, &[]);
    let no = plume(&["judge", "examples/depths.tsv", name]);
    assert_eq!(
        no.ends(1, &[]).text(),
        "no: the list's colour is too far from the ramp's at 0.055555556 (point 0 of row 2)\n"
    );
    let yes = plume(&["judge", "examples/depths.tsv", name, "-t", "0.035"]);
    assert_eq!(yes.ends(0, &[]).text(), "yes\n");
    plume(&["judge", "examples/depths.tsv", "examples/shelf.tsv"])
        .ends(2, &["a list is mixed linearly, and this is not"]);
    plume(&["judge", "examples/depths.tsv"]).ends(2, &["a list is to be named"]);
}

#[test]
fn apart_tells_of_each_depth() {
    let ran = plume(&["apart", "examples/lost-band.tsv", "--published"]);
    let told = ran.ends(1, &["6 depths: 2 moved by more than 0.007, 1 close, 2 merged, at a step of 0.02"]).text();
    let lines: Vec<&str> = told.lines().collect();
    assert_eq!((lines.len(), lines[0]), (6, "0\t0\t0 off"));
    assert!(lines[2].starts_with("2\t0.3891\t0.41 off; moved: more than 0.007; MERGED"));
    plume(&["apart", "examples/lost-band.tsv"]).ends(0, &["0 moved", "0 merged"]);
    let asked = plume(&["apart", "examples/depths.tsv", "--depths", "0.1,0.2", "--step", "0.5"]);
    assert_eq!(asked.ends(0, &["2 depths: 0 moved by more than 0.007, 1 close, 0 merged"]).text().lines().count(), 2);
    plume(&["apart", "examples/depths.tsv", "--depths", "0.2,0.1"]).ends(3, &["refused 23: "]);
    plume(&["apart", "examples/depths.tsv", "--step", "-1"]).ends(3, &["refused 24: "]);
}

#[test]
fn edits_are_made_one_after_the_other() {
    let all = ["color", "1", "#ff0000", "add", "0.5", "#00ff00", "move", "2", "0.6", "remove", "1"];
    let words = [&["edit", "-", "--to", "gdal"][..], &all].concat();
    let text = b"kind\tlinear\nstop\t0\t0\t0\t0\t1\nstop\t0.3\t0\t0\t0\t1\nstop\t1\t1\t1\t1\t1\n";
    let ran = plume_of(&words, text);
    assert_eq!(ran.ends(0, &["3 stops in, 3 out"]).text(), "0 0 0 0 255\n0.6 0 255 0 255\n1 255 255 255 255\n");
    // the same as the tool's own edit
    let edited = plume(&["edit", "examples/depths.tsv", "color", "6", "#1a6199", "--published"]);
    assert_eq!(edited.status, 1);
    plume(&["edit", "examples/depths.tsv", "remove", "0"]).ends(3, &["refused 6: ", "; the edit is 'remove 0'"]);
    plume(&["edit", "examples/depths.tsv", "move", "3", "0.9"]).ends(3, &["refused 3: ", "; the edit is 'move 3 0.9'"]);
    plume(&["edit", "examples/depths.tsv", "paint", "3"]).ends(2, &["expected an edit: color, move, add or remove"]);
    plume(&["edit", "examples/depths.tsv", "color", "3"]).ends(2, &["the edit 'color' lacks a color"]);
    plume(&["edit", "examples/depths.tsv"]).ends(2, &["an edit is to be named"]);
}

#[test]
fn converting_keeps_what_is_mixed_linearly() {
    let text = plume(&["convert", "examples/shelf.tsv", "--to", "text"]);
    assert!(text.ends(0, &["3 stops, kept as they are"]).text().starts_with("kind\tsmoothstep\nstop\t0\t"));
    plume(&["convert", "examples/shelf.tsv", "--to", "cpt"])
        .ends(0, &["it is not mixed linearly, so it is flattened", "9 out"]);
    let table = plume(&["convert", "examples/golden/in/land.cpt", "--to", "cpt"]);
    assert!(table.ends(0, &["8 stops, kept"]).out == file("examples/golden/land.cpt"));
    let metres = plume(&["convert", "examples/golden/in/tints.csv", "--to", "gdal", "--domain", "-6000", "0"]);
    assert!(metres.ends(0, &[]).text().contains("\n-2700 107 174 214 255\n-2700 253 208 162 255\n0 "));
    plume(&["convert", "examples/golden/in/sea.ggr", "--to", "cpt"]).ends(0, &["a colour table has no alpha"]);
}

#[test]
fn many_files_go_to_a_folder_and_one_bad_one_stops_nothing() {
    let out = folder("many").join("out");
    let name = format!("{}/", out.display());
    let ramps = ["examples/refused.tsv", "examples/depths.tsv", "examples/unread.tsv", "examples/shelf.tsv"];
    let ran = plume(&[&["flatten", "--to", "cpt", "-o", &name], &ramps[..]].concat());
    ran.ends(
        4,
        &["refused.tsv:4: refused 3", "depths.tsv: 12 stops in", "unread.tsv:3: expected", "shelf.tsv: 3 stops in"],
    );
    let mut names: Vec<_> = std::fs::read_dir(&out).unwrap().map(|one| one.unwrap().file_name()).collect();
    names.sort();
    assert_eq!(names, ["depths.cpt", "shelf.cpt"]);
    let twice = plume(&["flatten", "--to", "cpt", "-o", &name, "examples/shelf.tsv", "examples/golden/shelf.tsv"]);
    twice.ends(2, &["was written for another file of that name already"]);
}

#[test]
fn a_picture_tells_all_in_words_too() {
    let ran = plume(&["show", "examples/lost-band.tsv", "--published"]);
    let svg = ran.ends(1, &["2 pairs of depths became one"]).text();
    for words in [
        "<title id=\"title\">lost-band: ramp and list</title>",
        "2 at 0.3891: moved, 0.41 off; merged with 1",
        "url(#moved)",
        "url(#merged)",
    ] {
        assert!(svg.contains(words), "{words}");
    }
    assert!(!svg.contains("url(#redone)"));
    let edited = plume(&["show", "examples/depths-edited.tsv"]).ends(0, &[]).text();
    assert!(edited.contains("the 10 hatched ones were redone for the edit"));
    let named = plume(&["show", "examples/depths.tsv", "--edit", "color 6 #1a6199 move 1 0.1"]).ends(0, &[]).text();
    assert!(named.contains("hatched ones were redone for the edit"));
    plume(&["show", "examples/depths.tsv", "examples/golden/shelf.tsv"]).ends(1, &["Judged: no."]);
}

#[test]
fn help_and_version() {
    let version = plume(&["--version"]).ends(0, &[]).text();
    assert_eq!(version, concat!("plume ", env!("CARGO_PKG_VERSION"), "\n"), "Cargo.toml and the library differ");
    let help = plume(&["--help"]).ends(0, &[]).text();
    for command in ["flatten", "edit", "convert", "judge", "apart", "show", "check"] {
        assert!(help.contains(&format!("plume {command} ")));
        assert!(plume(&["help", command]).ends(0, &[]).text().starts_with(&format!("plume {command} ")));
        assert_eq!(plume(&[command, "--help"]).text(), plume(&["help", command]).text());
    }
    plume(&["help", "frob"]).ends(2, &["there is no command 'frob'"]);
}
