//! Every format, held to files that compare/trade/golden.py works out of the same lists.

mod common;
use common::{file, plume};

const RAMPS: [(&str, &str); 4] = [
    ("shelf", "examples/shelf.tsv"),
    ("sea", "examples/golden/in/sea.ggr"),
    ("land", "examples/golden/in/land.cpt"),
    ("tints", "examples/golden/in/tints.csv"),
];
const FORMATS: [(&str, &str); 9] = [
    ("text", "tsv"),
    ("bits", "bits"),
    ("ggr", "ggr"),
    ("cpt", "cpt"),
    ("qgis", "qgis.txt"),
    ("gdal", "gdal.txt"),
    ("svg", "svg"),
    ("css", "css"),
    ("json", "json"),
];

#[test]
fn every_format_is_as_stored() {
    for (name, ramp) in RAMPS {
        for (format, ending) in FORMATS {
            let ran = plume(&["flatten", ramp, "--to", format]);
            ran.ends(0, &["Judged: yes."]);
            let stored = file(&format!("examples/golden/{name}.{ending}"));
            assert!(ran.out == stored, "{name}.{ending} differs:\n{}", ran.text());
        }
    }
}

#[test]
fn what_is_written_as_a_ramp_is_read_again() {
    for (name, ramp) in RAMPS {
        for ending in ["tsv", "bits", "ggr", "cpt"] {
            let list = format!("examples/golden/{name}.{ending}");
            plume(&["check", &list]).ends(0, &[]);
            // a GIMP gradient runs from 0 to 1, a colour table has whole numbers and no alpha
            if ending == "tsv" || ending == "bits" {
                let ran = plume(&["judge", ramp, &list]);
                assert_eq!((ran.ends(0, &[]).text().as_str(), ran.status), ("yes\n", 0));
            }
        }
    }
}

#[test]
fn published_bits_are_those_of_the_tool() {
    for name in ["depths", "depths-edited", "lost-band", "shelf"] {
        let ran = plume(&["flatten", &format!("examples/{name}.tsv"), "--published", "--to", "bits"]);
        assert!(ran.out == file(&format!("examples/printed/{name}.txt")), "{name} differs:\n{}", ran.text());
    }
    // the same lines by our own hand, where the threshold is named once more
    let ran = plume(&["flatten", "examples/shelf.tsv", "--published", "--to", "bits", "-t", "0.01"]);
    assert!(ran.out == file("examples/printed/shelf.txt"));
}

#[test]
fn the_pictures_of_the_pages_are_as_drawn() {
    for name in ["depths", "lost-band"] {
        let ran = plume(&["show", &format!("examples/{name}.tsv"), "--published"]);
        let stored = file(&format!("docs/pictures/{name}.svg"));
        assert!(ran.out == stored, "docs/pictures/{name}.svg: draw it anew by the command of docs/EDITOR.md");
    }
}
