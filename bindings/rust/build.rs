//! Links libhandset.a, which `bin/library` writes; ULUVOLI_LIB names another folder that holds it. Where ULUVOLI_UNLINKED is
//! set nothing is linked: the crate is type-checked, on whatever processor.

/// Says what is wanted, and ends the build.
fn wanted(what: &str) -> ! {
    eprintln!("uluvoli: {what}");
    std::process::exit(1)
}

fn main() {
    let here = std::env::var("CARGO_MANIFEST_DIR").expect("cargo names the crate's folder");
    let processor = std::env::var("CARGO_CFG_TARGET_ARCH").expect("cargo names the processor");
    let folder = std::env::var("ULUVOLI_LIB").unwrap_or(format!("{here}/../../target/staticlib"));
    println!("cargo:rerun-if-env-changed=ULUVOLI_LIB");
    println!("cargo:rerun-if-env-changed=ULUVOLI_UNLINKED");
    println!("cargo:rerun-if-changed={folder}/libhandset.a");
    if std::env::var_os("ULUVOLI_UNLINKED").is_some() {
        return;
    }
    if processor != "x86_64" {
        wanted(&format!(
            "libhandset.a is for x86-64 and this build is for {processor}: bindings/run tests for x86-64 on another \
             processor, `cargo test --target x86_64-unknown-linux-gnu` wants a rustc and a linker for it, and \
             ULUVOLI_UNLINKED=1 cargo check links nothing"
        ));
    }
    if !std::path::Path::new(&folder).join("libhandset.a").is_file() {
        wanted(&format!("there is no libhandset.a in {folder}: bin/library writes it, ULUVOLI_LIB names its folder"));
    }
    println!("cargo:rustc-link-search=native={folder}");
    println!("cargo:rustc-link-lib=static=handset");
}
