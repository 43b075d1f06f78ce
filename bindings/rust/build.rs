//! Finds the static library: in the folder that `$GUINEAPLUME_LIB` names, else where `./library` leaves it. Where there is
//! none, or one for another machine, a line says so.

use std::path::{Path, PathBuf};
use std::{env, fs};

const LIBRARY: &str = "libcolorgrad_c.a";
const FOLDER: &str = "GUINEAPLUME_LIB";

fn main() {
    let folder = env::var_os(FOLDER).map_or_else(own_folder, PathBuf::from);
    println!("cargo:rerun-if-env-changed={FOLDER}");
    println!("cargo:rerun-if-changed={}", folder.join(LIBRARY).display());
    if let Some(wrong) = what_is_wrong(&folder.join(LIBRARY)) {
        eprintln!("{wrong}: type ./library at the root of the repository, or name a folder that has it by ${FOLDER}");
        std::process::exit(1);
    }
    println!("cargo:rustc-link-search=native={}", folder.display());
    println!("cargo:rustc-link-lib=static=colorgrad_c");
}

/// In the repository that this package is a part of.
fn own_folder() -> PathBuf {
    Path::new(env!("CARGO_MANIFEST_DIR")).join("../../target/library")
}

fn what_is_wrong(library: &Path) -> Option<String> {
    let target = env::var("TARGET").unwrap_or_default();
    match fs::read(library) {
        Err(error) => Some(format!("{} cannot be read ({error})", library.display())),
        Ok(archive) if is_for_another(&archive, &target) => Some(format!("{} is not for {target}", library.display())),
        Ok(_) => None,
    }
}

/// Whether the archive's objects are of another machine than the target's. Of targets that are not named here the linker
/// says it.
fn is_for_another(archive: &[u8], target: &str) -> bool {
    // e_machine of the ELF format
    let machine = match target.split_once('-') {
        Some((_, system)) if !system.contains("linux") => return false,
        Some(("x86_64", _)) => 62,
        Some(("aarch64", _)) => 183,
        Some((risc, _)) if risc.starts_with("riscv64") => 243,
        _ => return false,
    };
    first_object(archive).and_then(machine_of) != Some(machine)
}

/// The bytes of the first member that is neither a table of symbols nor one of long names, from there on.
fn first_object(archive: &[u8]) -> Option<&[u8]> {
    // a header of 60 bytes before each member: its name in 16, its size in 10 from the 48th on; members start at even places
    let mut rest = archive.strip_prefix(b"!<arch>\n")?;
    loop {
        let (header, body) = (rest.get(..60)?, rest.get(60..)?);
        let name = std::str::from_utf8(&header[..16]).ok()?.trim_end();
        if !["/", "//", "/SYM64/"].contains(&name) {
            return Some(body);
        }
        let size: usize = std::str::from_utf8(&header[48..58]).ok()?.trim_end().parse().ok()?;
        rest = body.get(size + size % 2..)?;
    }
}

fn machine_of(object: &[u8]) -> Option<u16> {
    match object.get(..20)? {
        [0x7f, b'E', b'L', b'F', .., low, high] => Some(u16::from_le_bytes([*low, *high])),
        _ => None,
    }
}
