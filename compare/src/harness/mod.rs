//! What every comparison stands on: the published Rust, the library, random ramps, counting.

pub mod clock;
#[allow(dead_code)]
#[path = "../../../bindings/rust/src/ffi.rs"]
pub mod ffi;
pub mod limits;
pub mod options;
pub mod oracle;
pub mod ours;
pub mod ramps;
pub mod random;
pub mod random_ramps;
pub mod refused;
pub mod report;
pub mod smallest;
