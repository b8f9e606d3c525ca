//! The lines that `clock2q` reads, as docs/COMMANDS.md describes them.

/// A line after the first: a call, with its keys, values and slots.
#[derive(Clone, Debug)]
pub enum Command {
    Put(u64, u64),
    Get(u64),
    Peek(u64),
    GetAt(u64, u64),
    Set(u64, u64),
    Contains(u64),
    Remove(u64),
    With(u64, u64),
    /// The value, unless making it fails.
    Try(u64, Option<u64>),
    Slot(u64, u64),
    Retain(Vec<bool>),
    Prefill(Vec<u64>),
    Clear,
    Len,
    IsEmpty,
    Capacity,
}

/// The first line: the capacity, and Small's slots and the window if they are chosen.
#[derive(Clone, Copy, Debug)]
pub struct Made {
    pub capacity: u64,
    pub shares: Option<Shares>,
}

/// How many slots are for new keys, for how many admissions each is young, and how many evicted keys are remembered, if
/// that is said.
#[derive(Clone, Copy, Debug)]
pub struct Shares {
    pub small: usize,
    pub window: usize,
    pub history: Option<usize>,
}

/// Why there are no replies.
#[derive(Clone, Copy, Debug)]
pub enum Refusal {
    BadLine(usize),
    Capacity,
    Memory,
    Policy,
}

impl Refusal {
    /// Returns what the program says, and its status.
    pub fn shown(self) -> String {
        match self {
            Refusal::BadLine(line) => format!("!line {line}: bad command, status 2"),
            Refusal::Capacity => "!capacity refused, status 3".to_string(),
            Refusal::Memory => "!no memory, status 3".to_string(),
            Refusal::Policy => "!policy refused, status 5".to_string(),
        }
    }
}

fn number(word: &str) -> Option<u64> {
    let is_decimal = !word.is_empty() && word.bytes().all(|byte| byte.is_ascii_digit());
    is_decimal.then(|| word.parse().ok()).flatten()
}

fn bit(byte: u8) -> Option<bool> {
    matches!(byte, b'0' | b'1').then_some(byte == b'1')
}

fn command(words: &[&str]) -> Option<Command> {
    Some(match words {
        ["put", key, value] => Command::Put(number(key)?, number(value)?),
        ["get", key] => Command::Get(number(key)?),
        ["peek", key] => Command::Peek(number(key)?),
        ["get_at", slot, key] => Command::GetAt(number(slot)?, number(key)?),
        ["set", key, value] => Command::Set(number(key)?, number(value)?),
        ["contains", key] => Command::Contains(number(key)?),
        ["remove", key] => Command::Remove(number(key)?),
        ["with", key, value] => Command::With(number(key)?, number(value)?),
        ["try", key, "fail"] => Command::Try(number(key)?, None),
        ["try", key, value] => Command::Try(number(key)?, Some(number(value)?)),
        ["slot", key, value] => Command::Slot(number(key)?, number(value)?),
        ["retain", bits] if !bits.is_empty() => {
            Command::Retain(bits.bytes().map(bit).collect::<Option<_>>()?)
        }
        ["prefill", values @ ..] if !values.is_empty() => Command::Prefill(
            values
                .iter()
                .map(|value| number(value))
                .collect::<Option<_>>()?,
        ),
        ["clear"] => Command::Clear,
        ["len"] => Command::Len,
        ["is_empty"] => Command::IsEmpty,
        ["capacity"] => Command::Capacity,
        _ => return None,
    })
}

fn made(words: &[&str]) -> Option<Made> {
    // A share that is no number of the machine's is more than any capacity.
    let share = |word| number(word).map(|share| usize::try_from(share).unwrap_or(usize::MAX));
    let (capacity, shares) = match words {
        ["new", capacity] => (capacity, None),
        ["new", capacity, small, window] | ["new", capacity, small, window, _] => {
            let history = words.get(4);
            let shares = Shares {
                small: share(small)?,
                window: share(window)?,
                history: history.map(|word| share(word).ok_or(())).transpose().ok()?,
            };
            (capacity, Some(shares))
        }
        _ => return None,
    };
    let capacity = number(capacity).filter(|capacity| *capacity > 0)?;
    Some(Made { capacity, shares })
}

/// Reads a text whole.
pub fn read(text: &[u8]) -> Result<(Made, Vec<Command>), Refusal> {
    let text = text.strip_suffix(b"\n").unwrap_or(text);
    let mut lines = text
        .split(|byte| *byte == b'\n')
        .enumerate()
        .map(|(at, line)| {
            let words = std::str::from_utf8(line).map_err(|_| Refusal::BadLine(at + 1))?;
            Ok((at + 1, words.split(' ').collect::<Vec<_>>()))
        });
    let (at, first) = lines.next().unwrap_or(Ok((1, Vec::new())))?;
    let made = made(&first).ok_or(Refusal::BadLine(at))?;
    let rest =
        lines.map(|line| line.and_then(|(at, words)| command(&words).ok_or(Refusal::BadLine(at))));
    Ok((made, rest.collect::<Result<_, _>>()?))
}
