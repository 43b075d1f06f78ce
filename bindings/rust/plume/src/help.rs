//! What `plume --help` and `plume help COMMAND` print.

pub const ALL: &str = "\
plume: colour ramps, flattened, edited, judged and shown

  plume flatten FILE ..      the ramp as a list of stops between which a straight mix will do
  plume edit FILE EDIT ..    the same after edits: color 3 #1a2b3c, move 3 0.42, ..
  plume convert FILE ..      the ramp in another format, as it is where it is mixed linearly
  plume judge RAMP LIST      whether a list made elsewhere shows the ramp
  plume apart RAMP [LIST]    which depths are off in a list, and which became one
  plume show RAMP [LIST]     a picture of both, as SVG
  plume check FILE ..        whether a file can be used
  plume help COMMAND         more of a command
  plume --version

A file is told by its first bytes: the tool's text, a GIMP gradient, a GMT colour table, CSV
with a header, or what the tool 'flatten' prints. '-' is standard input. Stops are counted
from 0.

It ends with 0: fine; 1: judged no, or depths became one; 2: the command line, a file or the
disk; 3: refused, with the number of the refusal; 4: a file that could not be read.

The ramps are worked out by a proved library. This program around it is not proved.
";

const LISTS: &str = "
  -t T              the threshold, 0.001 to 0.035: how far a mix may be off before a stop is
                    needed; else the file's, else 0.007
  --hold H          a list that keeps its word, which is the default: at the ramp's own
                    positions it is within H, 0.001 to T; else 0.001
  --published       the published list instead, which can leave a thin band out
  --bytes           channels run from 0 to 255
";

const OUTPUT: &str = "\
\x20 --to FORMAT       text, bits, ggr, cpt, qgis, gdal, svg, css or json; else by the ending of
                    OUT, else text
  -o OUT            a file, or a folder for several; else standard output
  --domain MIN MAX  where the list shall run from and to, such as metres; ggr, svg and css
                    run from 0 to 1

Channels become bytes so: clamped to 0..1, times 255, to the nearest whole number, ties to
even. A hard edge is a position twice.
";

const APART: &str = "\
\x20 --step S          how far apart the colours of two depths must be to be told apart; else 0.02
  --depths D,D,..   the depths; else the ramp's own positions
";

const FLATTEN: &str = "\
plume flatten FILE .. [-t T] [--hold H | --published] [--to FORMAT] [-o OUT]
                      [--domain MIN MAX] [--bytes]

Writes the list of each ramp. On standard error it says how many stops went in and came out,
how far off the list is at the ramp's own stops, which of them became one, and what the judge
says. It ends with 1 where the judge says no or depths became one.
";

const EDIT: &str = "\
plume edit FILE EDIT .. [-t T] [--hold H | --published] [--to FORMAT] [-o OUT]
                        [--domain MIN MAX] [--bytes]

Makes edits of the ramp, one after the other, and writes the list of what comes of them.
Stops are counted from 0; positions are the file's own.

  color 3 #1a2b3c   stop 3 gets another colour; linear, smoothstep, basis, Catmull-Rom ramps
  move 3 0.42       stop 3 moves between its neighbours; linear and smoothstep ramps
  add 0.42 #1a2b3c  a stop more
  remove 3          a stop less; the first and the last stay
";

const CONVERT: &str = "\
plume convert FILE .. --to FORMAT [-o OUT] [--domain MIN MAX] [--bytes]

Writes the ramp's own stops where it is mixed linearly, or where the format is text; else its
list, as 'plume flatten' does.
";

const JUDGE: &str = "\
plume judge RAMP LIST [-t T] [--bytes]

Says yes, or no and why: whether the list, mixed linearly, shows the ramp within the threshold
at every point that a sampling looks at. It says yes to a list that lost a thin band: ask
'plume apart' too.
";

const DEPTHS: &str = "\
plume apart RAMP [LIST] [-t T] [--hold H | --published] [--step S] [--depths D,D,..] [--bytes]

Says of each depth how far off the list is, whether that is more than the threshold, and
whether the depth became one with the depth before. Without LIST the list is made.
";

const SHOW: &str = "\
plume show RAMP [LIST] -o OUT.svg [--edit 'EDIT ..'] [-t T] [--hold H | --published]
                       [--step S] [--depths D,D,..] [--bytes]

Draws the ramp above the list, the stops of each, the profile of each channel and of
lightness, how far off the list is, the 36 cells, and what 'plume apart' finds. Cells that an
edit redoes are hatched: the file's edit, or those of --edit. Without LIST the list is made.
";

const CHECK: &str = "\
plume check FILE .. [--bytes]

Reads each file and says what it is, or what is wrong and in which line.
";

/// The help of a command.
pub fn of(command: &str) -> Option<String> {
    Some(match command {
        "flatten" => [FLATTEN, LISTS, OUTPUT].concat(),
        "edit" => [EDIT, LISTS, OUTPUT].concat(),
        "convert" => [CONVERT, LISTS, OUTPUT].concat(),
        "judge" => JUDGE.into(),
        "apart" => [DEPTHS, LISTS, APART].concat(),
        "show" => [SHOW, LISTS, APART].concat(),
        "check" => CHECK.into(),
        _ => return None,
    })
}
