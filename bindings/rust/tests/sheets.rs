//! A sheet: after any edits its record and its list are those of its ramp made afresh, and the ramp is what the edits that
//! were not refused make of the first. `compare/run sheets` does the same with many more, beside the published Rust.

#![cfg(feature = "std")]

use guineaplume::slices::MOST_STOPS;
use guineaplume::{
    BasisGradient, CatmullRomGradient, Color, Edit, GimpGradient, Gradient, LinearGradient, List, ListSort, Refresh,
    Refusal, SharpGradient, Sheet, SmoothstepGradient, Verdict,
};

const SORTS: [ListSort; 2] = [ListSort::Thinned, ListSort::Within(0.001)];

fn gray(x: f32) -> Color {
    Color::new(x, x, x, 1.0)
}

fn linear() -> LinearGradient {
    LinearGradient::new(&[0.0, 0.25, 0.5, 1.0], &[0.0, 0.8, 0.3, 1.0].map(gray)).expect("a ramp")
}

/// Whether record and list are those of the ramp made afresh.
fn is_fresh<G: Gradient>(sheet: &Sheet<G>, sort: ListSort) -> bool {
    let made = match sort {
        ListSort::Within(hold) => sheet.ramp().flatten_within(sheet.threshold(), hold),
        _ => sheet.ramp().flatten(sheet.threshold()),
    };
    match (made, sheet.list()) {
        (Ok((record, whole)), Ok(list)) => {
            *sheet.record() == record && (list.positions(), list.colors()) == (whole.positions(), whole.colors())
        }
        (Err(refusal), list) => list == Err(refusal),
        _ => false,
    }
}

/// A number that looks random, for the i-th edit.
fn drawn(i: usize, salt: usize) -> usize {
    (i + 1).wrapping_mul(0x9e37_79b9_7f4a_7c15).wrapping_add(salt.wrapping_mul(0xbf58_476d_1ce4_e5b9)) >> 33
}

fn any_edit(i: usize) -> Edit {
    let (stop, shade) = (drawn(i, 1) % 7, (drawn(i, 2) % 256) as f32 / 255.0);
    let position = (drawn(i, 3) % 1024) as f32 / 1024.0;
    match drawn(i, 4) % 5 {
        0 => Edit::Move { stop, position },
        1 | 2 => Edit::Add { stop, position, color: gray(shade) },
        3 => Edit::Remove { stop },
        _ => Edit::Color { stop, color: gray(if i % 11 == 0 { f32::NAN } else { shade }) },
    }
}

/// Many edits; how many are refused and how many are not.
fn run<G: Gradient + Refresh + Clone + PartialEq + std::fmt::Debug>(ramp: G, sort: ListSort) -> (usize, usize) {
    let mut alone = ramp.clone();
    let mut record = alone.sample(0.01).expect("a record");
    let mut sheet = Sheet::open(ramp, 0.01, sort).expect("a sheet");
    assert!(is_fresh(&sheet, sort));
    let (mut made, mut refused) = (0, 0);
    for i in 0..300 {
        let told = sheet.edit(any_edit(i));
        assert_eq!(told.err(), alone.edit(any_edit(i), &mut record).err());
        assert_eq!((sheet.ramp(), sheet.record()), (&alone, &record));
        assert!(is_fresh(&sheet, sort), "edit {i}");
        *(if told.is_ok() { &mut made } else { &mut refused }) += 1;
    }
    (made, refused)
}

#[test]
fn after_any_edits_all_is_fresh() {
    for sort in SORTS {
        let (made, refused) = run(linear(), sort);
        assert!(made > 60 && refused > 60, "{made} made, {refused} refused");
        let (positions, colors) = (linear().positions().to_vec(), [0.0, 0.8, 0.3, 1.0].map(gray));
        run(SmoothstepGradient::new(&positions, &colors).expect("a ramp"), sort);
        run(BasisGradient::new(&positions, &colors).expect("a ramp"), sort);
        run(CatmullRomGradient::new(&positions, &colors).expect("a ramp"), sort);
    }
}

#[test]
fn what_is_handed_out_undoes() {
    for sort in SORTS {
        let mut sheet = Sheet::open(linear(), 0.007, sort).expect("a sheet");
        let mut back: Vec<Edit> = (0..100).filter_map(|i| sheet.edit(any_edit(i)).ok()).collect();
        assert!(back.len() > 20 && *sheet.ramp() != linear());
        while let Some(edit) = back.pop() {
            sheet.edit(edit).expect("what was made can be undone");
        }
        assert_eq!(*sheet.ramp(), linear());
        assert!(is_fresh(&sheet, sort));
    }
}

#[test]
fn a_sheet_of_boxes_holds_any_kind() {
    let mut sheet = Sheet::open(linear().boxed(), 0.007, ListSort::Thinned).expect("a sheet");
    sheet.edit(Edit::Remove { stop: 1 }).expect("an edit");
    assert_eq!(sheet.ramp().as_slices().positions, [0.0, 0.5, 1.0]);
    assert_eq!(sheet.judge(), Ok(Verdict::Yes));
    assert!(sheet.apart(0.02, &[0.0, 0.5, 1.0]).expect("depths").is_kept());
}

#[test]
fn what_has_no_edits_is_refused() {
    let edit = Edit::Color { stop: 0, color: gray(0.5) };
    let sharp = SharpGradient::build(&[gray(0.0), gray(1.0)], (0.0, 1.0), 0.0).expect("a ramp");
    let text = b"GIMP Gradient\nName: x\n1\n0 0.5 1 0 0 0 1 1 1 1 1 0 0\n";
    let gimp = GimpGradient::new(text, &gray(0.0), &gray(1.0)).expect("a text");
    let list: List = linear().linearize(0.007).expect("a list");
    let borrowed = linear();
    let all: [Box<dyn Gradient + '_>; 4] = [sharp.boxed(), gimp.boxed(), list.boxed(), (&borrowed).boxed()];
    for ramp in all {
        let mut sheet = Sheet::open(ramp, 0.007, ListSort::Thinned).expect("a sheet");
        assert_eq!(sheet.edit(edit), Err(Refusal::BadEdit));
        assert!(is_fresh(&sheet, ListSort::Thinned));
    }
}

#[test]
fn a_stop_too_many_is_refused() {
    let positions: Vec<f32> = (0..MOST_STOPS).map(|i| i as f32).collect();
    let ramp = LinearGradient::new(&positions, &vec![gray(0.5); MOST_STOPS]).expect("a ramp");
    let mut sheet = Sheet::open(ramp.clone(), 0.007, ListSort::Thinned).expect("a sheet");
    let edit = Edit::Add { stop: 1, position: 0.5, color: gray(0.5) };
    assert_eq!(sheet.edit(edit), Err(Refusal::Misshapen));
    assert_eq!(*sheet.ramp(), ramp);
    assert_eq!(sheet.edit(Edit::Remove { stop: 1 }), Ok(Edit::Add { stop: 1, position: 1.0, color: gray(0.5) }));
    assert_eq!(sheet.edit(edit), Ok(Edit::Remove { stop: 1 }));
}

/// A colour that overflows: the list is refused, ramp and record are changed, and a further edit mends it.
#[test]
fn a_list_that_is_refused_can_be_mended() {
    for sort in SORTS {
        let mut sheet = Sheet::open(linear(), 0.007, sort).expect("a sheet");
        let hot = Edit::Color { stop: 1, color: Color { r: f32::MAX, ..gray(0.0) } };
        sheet.edit(hot).expect("an edit");
        let back = sheet.edit(Edit::Color { stop: 2, color: Color { r: -f32::MAX, ..gray(0.0) } }).expect("an edit");
        let refusal = sheet.list().expect_err("colours beyond what is mixed");
        assert_eq!((sheet.judge(), sheet.apart(0.02, &[0.5]).err()), (Err(refusal), Some(refusal)));
        assert!(is_fresh(&sheet, sort));
        let refused = sheet.edit(Edit::Remove { stop: 0 });
        assert_eq!((refused, sheet.list().err()), (Err(Refusal::BadEdit), Some(refusal)));
        assert_eq!(sheet.clone().into_parts().2, Err(refusal));
        sheet.edit(back).expect("an edit");
        sheet.edit(Edit::Color { stop: 1, color: gray(0.8) }).expect("an edit");
        assert!(sheet.list().is_ok() && is_fresh(&sheet, sort));
    }
}

#[test]
fn a_far_domain_is_refused() {
    let far = LinearGradient::new(&[0.0, 2e38], &[gray(0.0), gray(1.0)]).expect("a ramp");
    assert_eq!(Sheet::open(far, 0.007, ListSort::Thinned).err(), Some(Refusal::FarDomain));
}

#[test]
fn an_edit_costs_what_edit_list_costs() {
    let (mut ramp, edit) = (linear(), Edit::Color { stop: 1, color: gray(0.7) });
    let mut record = ramp.sample(0.007).expect("a record");
    let mut sheet = Sheet::open(ramp.clone(), 0.007, ListSort::Thinned).expect("a sheet");
    sheet.edit(edit).expect("an edit");
    let list = ramp.edit_list(edit, &mut record).expect("a list");
    assert_eq!(sheet.list(), Ok(&list));
}
