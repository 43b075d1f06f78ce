//! Links the library under test, out of the folder that ./library made.
fn main() {
    println!("cargo:rerun-if-env-changed=LIBRARY");
    let folder = std::env::var("LIBRARY").expect("compare/run names the library's folder");
    println!("cargo:rustc-link-search=native={folder}");
    println!("cargo:rustc-link-lib=static=colorgrad_c");
    println!("cargo:rerun-if-changed={folder}/libcolorgrad_c.a");
}
