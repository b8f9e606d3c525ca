//! Prints a text of a million lines for the program `clock2q`: with the argument `skewed`, `with` and
//! `get` in turn at capacity 10,000; else five commands in turn at capacity 16.
use std::fmt::Write as _;
use std::io::Write;

fn mix(number: u64) -> u64 {
    let once = (number ^ number >> 30).wrapping_mul(0xBF58_476D_1CE4_E5B9);
    let twice = (once ^ once >> 27).wrapping_mul(0x94D0_49BB_1331_11EB);
    twice ^ twice >> 31
}

// Returns a key below 131,072. Each range from one power of two to the next has the same share.
fn skewed_key(drawn: u64) -> u64 {
    let range = 1 << (drawn % 17);
    range + (drawn >> 32 & (range - 1))
}

fn main() -> std::io::Result<()> {
    let is_skewed = std::env::args().nth(1).as_deref() == Some("skewed");
    let mut text = String::from(if is_skewed { "new 10000\n" } else { "new 16\n" });
    for line in 2..=1_000_000 {
        let drawn = mix((line as u64).wrapping_mul(0x9E37_79B9_7F4A_7C15));
        let (skewed, even) = (skewed_key(drawn), drawn >> 32 & 31);
        let written = match (is_skewed, line % 2, line % 5) {
            (true, 0, _) => writeln!(text, "with {skewed} {line}"),
            (true, _, _) => writeln!(text, "get {skewed}"),
            (false, _, 0) => writeln!(text, "put {even} {line}"),
            (false, _, 1) => writeln!(text, "get {even}"),
            (false, _, 2) => writeln!(text, "peek {even}"),
            (false, _, 3) => writeln!(text, "contains {even}"),
            (false, _, _) => writeln!(text, "len"),
        };
        written.expect("a string takes all");
    }
    std::io::stdout().write_all(text.as_bytes())
}
