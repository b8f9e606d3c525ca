//! The commands of `clock2q` over the Rust module, for a comparison: `bench/README.md` says how to
//! build it. It stops at a bad line.
#![feature(rustc_private)]
#![allow(dead_code)]
extern crate hashbrown;

mod cache;
mod handles;
mod stand_ins;
use stand_ins::{ahash, prefetch};

use cache::Cache;
use std::fmt::Write as _;
use std::io::{Read, Write};
use std::num::NonZeroUsize;

enum Command {
    With(u64, u64),
    Get(u64),
    Put(u64, u64),
    Peek(u64),
    Contains(u64),
    Len,
}

fn number<'a>(words: &mut impl Iterator<Item = &'a str>) -> Option<u64> {
    words.next()?.parse().ok()
}

fn parse(line: &str) -> Option<Command> {
    let mut words = line.split(' ');
    let command = match words.next()? {
        "with" => Command::With(number(&mut words)?, number(&mut words)?),
        "get" => Command::Get(number(&mut words)?),
        "put" => Command::Put(number(&mut words)?, number(&mut words)?),
        "peek" => Command::Peek(number(&mut words)?),
        "contains" => Command::Contains(number(&mut words)?),
        "len" => Command::Len,
        _ => return None,
    };
    words.next().is_none().then_some(command)
}

fn write_value(out: &mut String, value: Option<u64>) {
    match value {
        Some(value) => writeln!(out, "some {value}").unwrap(),
        None => out.push_str("none\n"),
    }
}

fn run(cache: &mut Cache<u64, u64>, command: Command, out: &mut String) {
    match command {
        Command::With(key, value) => {
            writeln!(out, "{}", cache.get_or_insert_with(key, || value)).unwrap()
        }
        Command::Get(key) => write_value(out, cache.get(&key).copied()),
        Command::Put(key, value) => write_value(out, cache.put(key, value)),
        Command::Peek(key) => write_value(out, cache.peek(&key).copied()),
        Command::Contains(key) => writeln!(out, "{}", cache.contains(&key)).unwrap(),
        Command::Len => writeln!(out, "{}", cache.len()).unwrap(),
    }
}

/// The replies to a text; nothing where a line of it is bad.
fn replies(text: &str) -> Option<String> {
    let mut lines = text.lines();
    let capacity: NonZeroUsize = lines.next()?.strip_prefix("new ")?.parse().ok()?;
    let commands = lines.map(parse).collect::<Option<Vec<Command>>>()?;
    let mut cache = Cache::new(capacity);
    let mut out = String::from("ok\n");
    for command in commands {
        run(&mut cache, command, &mut out);
    }
    Some(out)
}

fn main() {
    let mut text = String::new();
    std::io::stdin().read_to_string(&mut text).unwrap();
    let out = replies(&text).expect("a bad line");
    std::io::stdout().write_all(out.as_bytes()).unwrap();
}
