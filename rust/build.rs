//! Links the reader. OWLGANTRY_LIB names its archive or an object of it; without the variable it is the archive that
//! `tools/staticlib owlgantry` writes.
use std::{env, fs, path::Path, path::PathBuf, process::exit, process::Command};

fn main() {
    println!("cargo:rerun-if-env-changed=OWLGANTRY_LIB");
    let out = PathBuf::from(env::var("OUT_DIR").expect("cargo names the output folder"));
    let reader = reader();
    println!("cargo:rerun-if-changed={}", reader.display());
    put_archive(&reader, &out.join("libowlgantry.a"));
    println!("cargo:rustc-link-search=native={}", out.display());
    println!("cargo:rustc-link-lib=static=owlgantry");
}

fn reader() -> PathBuf {
    let named = env::var("OWLGANTRY_LIB").ok().map(PathBuf::from);
    if named.is_none() && env::var("CARGO_CFG_TARGET_ARCH").as_deref() != Ok("x86_64") {
        fail("the archive is for x86-64; for another machine OWLGANTRY_LIB names an object of the reader");
    }
    let path = named.unwrap_or_else(|| {
        let here = env::var("CARGO_MANIFEST_DIR").expect("cargo names the package's folder");
        Path::new(&here).join("../target/staticlib/libowlgantry.a")
    });
    if !path.is_file() {
        fail(&format!("{} is missing; `tools/staticlib owlgantry` writes the archive", path.display()));
    }
    path
}

/// An archive is copied; an object becomes the only member of one.
fn put_archive(reader: &Path, archive: &Path) {
    if reader.extension().is_some_and(|end| end == "a") {
        fs::copy(reader, archive).expect("the output folder can be written");
        return;
    }
    let _ = fs::remove_file(archive);
    let made = Command::new("ar").arg("crs").arg(archive).arg(reader).status();
    if !made.is_ok_and(|status| status.success()) {
        fail("ar makes no archive of the object");
    }
}

fn fail(what: &str) -> ! {
    eprintln!("owlgantry: {what}");
    exit(1)
}
