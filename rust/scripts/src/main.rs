//! `scripts [--wrong NAME]` with a script on standard input: runs it over the
//! second implementation, as `crates/test_script` runs it over the proved one,
//! and prints what that program must print. `--wrong` turns one rule wrong.

mod answers;
mod held;
mod line;
mod script;
mod statements;

use second::switches::Switch;
use std::io::{self, Read};

fn main() {
    let arguments: Vec<String> = std::env::args().skip(1).collect();
    let words: Vec<&str> = arguments.iter().map(String::as_str).collect();
    let switch = match words[..] {
        [] => Switch::RIGHT,
        ["--wrong", name] => Switch::named(name).expect("a wrong turn"),
        _ => panic!("scripts [--wrong NAME] < script"),
    };
    let mut script = String::new();
    io::stdin()
        .read_to_string(&mut script)
        .expect("a script of text");
    script::run(&script, switch);
}
