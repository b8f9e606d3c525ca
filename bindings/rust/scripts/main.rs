//! scripts CASES: serves the texts of a file of cases over the erased core, under three hashers, and over the C library,
//! which has no call for `prefill`: texts with it are left out there. What each gives has to be what the file says, byte
//! for byte, which is what the proved program gives. Prints the cases that give something else. Status 1 if there is one.

mod commands;
mod core;
mod library;
mod replies;

use commands::{Command, Made, Refusal};
use replies::Calls;
use std::hash::{BuildHasherDefault, Hasher};
use std::process::ExitCode;

/// Gives all keys one hash, or each key itself.
#[derive(Default)]
struct Times<const TIMES: u64>(u64);

impl<const TIMES: u64> Hasher for Times<TIMES> {
    fn finish(&self) -> u64 {
        self.0
    }

    fn write(&mut self, _: &[u8]) {}

    fn write_u64(&mut self, number: u64) {
        self.0 = number.wrapping_mul(TIMES);
    }
}

/// The bytes that a case writes with ';' and '\'.
fn spelled(text: &str) -> Vec<u8> {
    let mut bytes = Vec::new();
    let mut rest = text.bytes();
    while let Some(byte) = rest.next() {
        bytes.push(match byte {
            b';' => b'\n',
            b'\\' => {
                let digits =
                    [rest.next(), rest.next()].map(|digit| digit.expect("two digits") as char);
                u8::from_str_radix(&String::from_iter(digits), 16).expect("a byte")
            }
            byte => byte,
        });
    }
    bytes
}

/// Serves a text over what `make` makes.
fn served<C: Calls>(text: &[u8], make: impl Fn(Made) -> Result<C, Refusal>) -> Vec<u8> {
    let replies = commands::read(text).and_then(|(made, list)| {
        let mut cache = make(made)?;
        let replies = list.iter().map(|command| cache.call(command) + "\n");
        Ok("ok\n".to_string() + &replies.collect::<String>())
    });
    replies.unwrap_or_else(Refusal::shown).into_bytes()
}

/// What a text gives over each, and over what.
fn outcomes(text: &[u8]) -> Vec<(&'static str, Vec<u8>)> {
    use clock2q::proved::cache::DefaultHashBuilder;
    let mut outcomes = vec![
        (
            "the core",
            served(text, core::Core::<DefaultHashBuilder>::new),
        ),
        (
            "one hash",
            served(text, core::Core::<BuildHasherDefault<Times<0>>>::new),
        ),
        (
            "keys as hashes",
            served(text, core::Core::<BuildHasherDefault<Times<1>>>::new),
        ),
    ];
    let fills = |command: &Command| matches!(command, Command::Prefill(_));
    if !commands::read(text).is_ok_and(|(_, list)| list.iter().any(fills)) {
        outcomes.push(("the C library", served(text, library::Library::new)));
    }
    outcomes
}

fn main() -> ExitCode {
    let path = std::env::args().nth(1).expect("scripts CASES");
    let cases = std::fs::read_to_string(path).expect("the cases");
    let (mut count, mut over_c, mut differ) = (0, 0, 0);
    for case in cases.lines().filter(|line| !line.starts_with('#')) {
        let (text, expected) = case.split_once('|').expect("a case");
        let (text, expected) = (spelled(text), spelled(expected));
        count += 1;
        for (over, outcome) in outcomes(&text) {
            over_c += usize::from(over == "the C library");
            if outcome != expected {
                differ += 1;
                println!(
                    "{over}: {case}\n  gives {:?}",
                    String::from_utf8_lossy(&outcome)
                );
            }
        }
    }
    println!("{count} cases, {over_c} of them over the C library: {differ} outcomes differ");
    ExitCode::from(u8::from(differ != 0 || over_c == 0))
}
