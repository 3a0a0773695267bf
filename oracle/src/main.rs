//! The oracle's commands; `README.md` beside this crate has the forms that they read and write.
use std::io::{Read, Write};

fn main() {
    let command = std::env::args().nth(1).unwrap_or_default();
    let output = match command.as_str() {
        "answer" => oracle::text::answers(&text(standard_input())).unwrap_or_else(|line| fail(&line)).into_bytes(),
        "colours" => oracle::colours::file(),
        "list" => list(),
        "pack" => oracle::record::pack(&standard_input()),
        _ => fail("the commands are answer, colours, list, pack"),
    };
    std::io::stdout().write_all(&output).expect("standard output takes the answer");
}

/// `list NAME SHARE`: the records of one set of limits, whose hand-written cases are the standard input.
fn list() -> Vec<u8> {
    let mut words = std::env::args().skip(2);
    let name = words.next().unwrap_or_else(|| fail("list wants a name"));
    let share = words.next().and_then(|word| word.parse().ok()).unwrap_or_else(|| fail("list wants a number"));
    oracle::list::records(&name, &text(standard_input()), share)
}

fn standard_input() -> Vec<u8> {
    let mut bytes = Vec::new();
    std::io::stdin().read_to_end(&mut bytes).unwrap_or_else(|_| fail("standard input can't be read"));
    bytes
}

fn text(bytes: Vec<u8>) -> String {
    String::from_utf8(bytes).unwrap_or_else(|_| fail("standard input is no text"))
}

fn fail(what: &str) -> ! {
    eprintln!("oracle: {what}");
    std::process::exit(2)
}
