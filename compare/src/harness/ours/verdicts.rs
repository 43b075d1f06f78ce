//! What is said of a list.

use crate::harness::ffi;
use crate::harness::ours::UNTOLD;
use crate::harness::ramps::Ramp;
use crate::judged::apart;
use crate::judged::judge::Verdict;

/// 0 or the refusal; and what is told: how many moved, are close, are merged, and the first merged one.
pub fn apart(
    ramp: &Ramp,
    asked: &apart::Asked,
    places: &[f32],
    colours: &[f32],
    faults: &mut [u8],
) -> (u32, [usize; 4]) {
    let mut told = [UNTOLD; 4];
    let refusal = over!(ramp, apart(asked.threshold, asked.step, &asked.depths, places, colours, faults, &mut told));
    (refusal, told)
}

/// What is said of a list, or the number of the ramp's refusal.
pub fn judge(ramp: &Ramp, threshold: f32, places: &[f32], colours: &[f32]) -> Result<Verdict, u32> {
    let (mut told, mut t) = ([UNTOLD; 4], [f32::NAN]);
    let refusal = over!(ramp, judge(threshold, places, colours, &mut told, &mut t));
    let [verdict, stop, row, index] = told;
    // what a verdict does not name is 0
    match (refusal, verdict, stop, row, index, t[0].to_bits()) {
        (0, 1, 0, 0, 0, 0) => Ok(Verdict::Yes),
        (0, 2, 0, 0, 0, 0) => Ok(Verdict::WrongLength),
        (0, 3, stop, 0, 0, 0) => Ok(Verdict::BadStop(stop)),
        (0, 4, 0, 0, 0, 0) => Ok(Verdict::WrongFirst),
        (0, 5, 0, 0, 0, 0) => Ok(Verdict::WrongLast),
        (0, 6, 0, row, index, t) => Ok(Verdict::TooFar(row, index, t)),
        (number, 0, 0, 0, 0, 0) if number != 0 => Err(number),
        other => panic!("no such answer: {other:?}"),
    }
}
