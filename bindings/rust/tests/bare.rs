//! Calls on slices, with nothing allocated: `cargo test --no-default-features --tests` runs these, over the crate without
//! `alloc`.

use guineaplume::slices::{self, Kind, Listed, Ramp, Record, RecordMut, Sheet, Sheeted, StopsMut};
use guineaplume::slices::{CELLS, MARKS, MOST_POINTS, ROWS};
use guineaplume::{Color, Edit, ListSort, Refusal, Stops, Verdict, DEFAULT_THRESHOLD};

const CHANNELS: [f32; 12] = [0.0, 0.0, 0.0, 1.0, 0.75, 0.75, 0.75, 1.0, 1.0, 1.0, 1.0, 1.0];

fn ramp() -> Ramp<'static> {
    Ramp { kind: Kind::Linear, positions: &[0.0, 0.5, 1.0], channels: &CHANNELS, codes: &[] }
}

#[test]
fn a_ramp_is_flattened_refreshed_and_judged() {
    let (mut rows, mut counts, mut marks) = ([0.0; ROWS], [0; CELLS], [0; MARKS]);
    let (mut positions, mut channels) = ([0.0; MOST_POINTS], [0.0; 4 * MOST_POINTS]);
    let record = RecordMut { rows: &mut rows, counts: &mut counts, marks: &mut marks };
    let out = StopsMut { positions: &mut positions, channels: &mut channels };
    let listed = ramp().flatten(DEFAULT_THRESHOLD, record, out).expect("a list");
    assert_eq!(&positions[..listed.stops], [0.0, 0.5, 1.0]);
    let judged = ramp().judge(DEFAULT_THRESHOLD, &positions[..listed.stops], &channels[..4 * listed.stops]);
    assert_eq!(judged, Ok(Verdict::Yes));

    let record = Record { rows: &rows, counts: &counts, marks: &marks };
    let mut stops = Stops::new(ramp(), DEFAULT_THRESHOLD, record);
    assert_eq!((stops.next(), stops.count()), (Some(Ok((0.0, Color::new(0.0, 0.0, 0.0, 1.0)))), 2));

    let record = RecordMut { rows: &mut rows, counts: &mut counts, marks: &mut marks };
    let edit = Edit::Move { stop: 1, position: 2.0 };
    assert_eq!(ramp().refresh(edit, DEFAULT_THRESHOLD, record), Err(Refusal::Falling));
}

#[test]
fn a_sheet_is_edited_in_place() {
    let (mut rows, mut counts, mut marks) = ([0.0; ROWS], [0; CELLS], [0; MARKS]);
    let (mut places, mut colours) = ([0.0; MOST_POINTS], [0.0; 4 * MOST_POINTS]);
    // room for one stop more
    let (mut positions, mut channels) = ([0.0, 0.5, 1.0, 7.0], [7.0; 16]);
    channels[..12].copy_from_slice(&CHANNELS);
    let record = RecordMut { rows: &mut rows, counts: &mut counts, marks: &mut marks };
    let list = StopsMut { positions: &mut places, channels: &mut colours };
    let opened = ramp().open_sheet(DEFAULT_THRESHOLD, ListSort::Within(0.001), record, list);
    assert!(matches!(opened, Ok(Sheeted { stops: 3, list: Ok(Listed { stops: 3, .. }) })));

    let mut sheet = Sheet {
        kind: Kind::Linear,
        positions: &mut positions,
        channels: &mut channels,
        codes: &[],
        stops: 3,
        threshold: DEFAULT_THRESHOLD,
        sort: ListSort::Within(0.001),
        record: RecordMut { rows: &mut rows, counts: &mut counts, marks: &mut marks },
        list: StopsMut { positions: &mut places, channels: &mut colours },
    };
    let add = Edit::Add { stop: 1, position: 0.25, color: Color::new(1.0, 0.0, 0.0, 1.0) };
    assert!(matches!(sheet.edit(add), Ok(Sheeted { stops: 4, list: Ok(Listed { stops: 4, .. }) })));
    assert_eq!(sheet.edit(add), Err(Refusal::BadEdit));
    assert!(matches!(sheet.edit(Edit::Remove { stop: 2 }), Ok(Sheeted { stops: 3, .. })));
    assert_eq!((sheet.stops, &places[..3], &positions[..3]), (3, &[0.0, 0.25, 1.0][..], &[0.0, 0.25, 1.0][..]));
}

#[test]
fn words_need_no_memory() {
    use core::fmt::Write;

    /// As many bytes as it has room for.
    struct Room([u8; 300], usize);
    impl Write for Room {
        fn write_str(&mut self, text: &str) -> core::fmt::Result {
            let to = self.1 + text.len();
            self.0.get_mut(self.1..to).ok_or(core::fmt::Error)?.copy_from_slice(text.as_bytes());
            self.1 = to;
            Ok(())
        }
    }
    for number in (1..).map_while(Refusal::from_number) {
        let mut room = Room([0; 300], 0);
        write!(room, "{number}").expect("room enough");
        assert!(room.1 > 0);
    }
    let mut room = Room([0; 300], 0);
    write!(room, "{}", Color::from_rgba8(1, 2, 3, 4).to_css_hex()).expect("room enough");
    assert_eq!(&room.0[..room.1], b"#01020304");
    assert_eq!(slices::token(b"0.5"), Some(0.5));
}
