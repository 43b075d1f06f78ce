//! Instructions in place of times: the benchmark runs below callgrind, and asks it for the count of each call.

use std::arch::asm;
use std::path::PathBuf;
use std::process::Command;
use std::sync::atomic::{AtomicUsize, Ordering};

/// Where callgrind writes, told to the benchmark that runs below it.
const OUTPUT: &str = "COMPARE_COUNTS";

/// Requests of callgrind's, as its header numbers them.
const DUMP: usize = 0x4354_0000;
const ZERO: usize = DUMP + 1;
const TOGGLE: usize = DUMP + 2;

/// Runs `bench` with these words below callgrind.
pub fn run(words: &[String]) -> Result<bool, String> {
    let output = std::env::temp_dir().join(format!("compare-count-{}", std::process::id()));
    std::fs::create_dir_all(&output).map_err(|e| e.to_string())?;
    let file = output.join("out");
    let program = std::env::current_exe().map_err(|e| e.to_string())?;
    let status = Command::new("valgrind")
        .args(["--tool=callgrind", "--collect-atstart=no", "--quiet"])
        .arg(format!("--callgrind-out-file={}", file.display()))
        .arg(program)
        .arg("bench")
        .args(words)
        .env(OUTPUT, &file)
        .status()
        .map_err(|e| format!("valgrind: {e}"))?;
    let _ = std::fs::remove_dir_all(&output);
    Ok(status.success())
}

/// Whether this run counts, and where to.
pub fn output() -> Option<PathBuf> {
    std::env::var_os(OUTPUT).map(PathBuf::from)
}

/// The instructions of one call, after one that is not counted.
pub fn instructions(output: &PathBuf, call: &mut impl FnMut()) -> f64 {
    static DUMPS: AtomicUsize = AtomicUsize::new(0);
    call();
    ask(ZERO);
    ask(TOGGLE);
    call();
    ask(TOGGLE);
    ask(DUMP);
    let number = DUMPS.fetch_add(1, Ordering::Relaxed) + 1;
    let dump = format!("{}.{number}", output.display());
    let text = std::fs::read_to_string(&dump).unwrap_or_else(|e| panic!("{dump}: {e}"));
    let _ = std::fs::remove_file(&dump);
    let total = text.lines().find_map(|line| line.strip_prefix("totals: "));
    total.and_then(|n| n.trim().parse().ok()).unwrap_or_else(|| panic!("{dump} has no total"))
}

/// A request to valgrind: four rotations that leave a register as it was, and one instruction that does nothing. Nothing
/// happens where valgrind is not there.
#[cfg(target_arch = "x86_64")]
fn ask(request: usize) {
    let arguments = [request, 0, 0, 0, 0, 0];
    unsafe {
        asm!(
            "rol rdi, 3",
            "rol rdi, 13",
            "rol rdi, 61",
            "rol rdi, 51",
            "xchg rbx, rbx",
            in("rax") &arguments,
            inout("rdx") 0usize => _,
        );
    }
}

#[cfg(target_arch = "aarch64")]
fn ask(request: usize) {
    let arguments = [request, 0, 0, 0, 0, 0];
    unsafe {
        asm!(
            "ror x12, x12, 3",
            "ror x12, x12, 13",
            "ror x12, x12, 51",
            "ror x12, x12, 61",
            "orr x10, x10, x10",
            in("x4") &arguments,
            inout("x3") 0usize => _,
        );
    }
}
