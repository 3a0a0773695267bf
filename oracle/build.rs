//! Puts the Rust that judges us where `src/lib.rs` includes it, byte for byte, and writes the limits of this build.
use std::{env, fs, path::Path, process::exit};

/// Each file of the sources and the name under which `include!` finds it.
const FILES: [(&str, &str); 3] =
    [("decoder.rs", "decoder.rs"), ("decoder/dcs_stream.rs", "dcs_stream.rs"), ("sixel_image.rs", "sixel_image.rs")];

/// Each limit of lib.rs, the variable that changes it for a build, and its value in icy_sixel 0.7.0.
const LIMITS: [(&str, &str, usize); 4] = [
    ("SIXEL_WIDTH_LIMIT", "ORACLE_WIDTH", 1_000_000),
    ("SIXEL_HEIGHT_LIMIT", "ORACLE_HEIGHT", 1_000_000),
    ("SIXEL_REPEAT_MAX", "ORACLE_REPEAT", 0xffff),
    ("SIXEL_MAX_PIXELS", "ORACLE_PIXELS", 64 * 1024 * 1024),
];

fn main() {
    let out = env::var("OUT_DIR").expect("cargo names the output folder");
    let sources = env::var("ORACLE_SOURCES").unwrap_or_else(|_| fail("ORACLE_SOURCES names no folder"));
    println!("cargo:rerun-if-env-changed=ORACLE_SOURCES");
    for (from, to) in FILES {
        let path = Path::new(&sources).join("src").join(from);
        println!("cargo:rerun-if-changed={}", path.display());
        let text = fs::read(&path).unwrap_or_else(|_| fail(&format!("{} is missing", path.display())));
        fs::write(Path::new(&out).join(to), text).expect("the output folder can be written");
    }
    // Out-of-line modules are looked for beside the file that names them, so the naming line stands there too.
    fs::write(Path::new(&out).join("modules.rs"), "pub mod sixel_image;\n").expect("the output folder can be written");
    let mut limits = String::new();
    for (name, variable, standard) in LIMITS {
        println!("cargo:rerun-if-env-changed={variable}");
        let value = env::var(variable).map_or(standard, |text| text.parse().unwrap_or_else(|_| fail(variable)));
        limits += &format!("pub(crate) const {name}: usize = {value};\n");
    }
    fs::write(Path::new(&out).join("limits.rs"), limits).expect("the output folder can be written");
}

fn fail(what: &str) -> ! {
    eprintln!("oracle: {what}");
    exit(1)
}
