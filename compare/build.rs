//! Links the proved reader where OWLGANTRY_LIB names its archive or its object file. Without it only the tests can be built.
use std::{env, path::Path};

fn main() {
    println!("cargo:rerun-if-env-changed=OWLGANTRY_LIB");
    println!("cargo:rustc-check-cfg=cfg(linked)");
    let Ok(object) = env::var("OWLGANTRY_LIB") else { return };
    println!("cargo:rerun-if-changed={object}");
    assert!(Path::new(&object).is_file(), "{object} is missing");
    println!("cargo:rustc-cfg=linked");
    println!("cargo:rustc-link-arg={object}");
}
