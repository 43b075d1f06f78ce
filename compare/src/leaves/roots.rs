//! The square root against the processor's and libm's, over every f32 or an even spread of them.

use crate::harness::options::Options;
use crate::harness::oracle;
use crate::harness::ours;
use crate::harness::report::{same, Tally};

const ALL: u64 = 1 << 32;

pub fn run(options: &Options) -> Vec<Tally> {
    let wanted = options.size.clamp(1, ALL);
    let mut hardware = Tally::new("roots: f32::sqrt", options.seed);
    let mut root = Tally::new("roots: libm sqrtf", options.seed);
    let mut power = Tally::new("roots: libm powf(x, 0.5), x from +0", options.seed);
    for i in 0..wanted {
        let x = f32::from_bits((i * ALL / wanted) as u32);
        let got = ours::root(x);
        compare(&mut hardware, x, got, x.sqrt());
        compare(&mut root, x, got, oracle::sqrtf(x));
        if x.is_sign_positive() {
            compare(&mut power, x, got, oracle::powf(x, 0.5));
        }
        if i % 65_536 == 65_535 {
            hardware.progress(i + 1, wanted);
        }
    }
    vec![hardware.done(), root.done(), power.done()]
}

fn compare(tally: &mut Tally, x: f32, got: f32, want: f32) {
    tally.inputs(1);
    tally.answered(1);
    if !same(got, want) {
        tally.differs(x.to_bits() as u64, || {
            format!("{:08x}: {:08x}, not {:08x}", x.to_bits(), got.to_bits(), want.to_bits())
        });
    }
}
