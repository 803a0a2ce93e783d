//! Scripts that stop early or end oddly: lines that are none of the format's.

use reference::{Call, MOST_LENT, MOST_NUMBERS, Numbers};

use crate::random::Random;
use crate::scripts::Names;

/// Lines that hold no call's name.
const NAMELESS: [&[u8]; 10] = [
    b" ",
    b" # no comment",
    b"lent 3",
    b"1 2 3",
    b"frobnicate",
    b"\tdump",
    b"\r",
    b"\xff\xfe",
    b"_",
    b"//",
];

const REPEATS: [&[u8]; 8] = [
    b"repeat",
    b"repeat 0",
    b"repeat -1",
    b"repeat 1 1",
    b"repeat 1 lent 1",
    b"repeat lent 1",
    b"repeat 18446744073709551616",
    b"repeat 2\nrepeat 2",
];

/// Spoil a whole script: what it holds, where it ends, or one line of it.
pub fn spoil(random: &mut Random, text: Vec<u8>, names: &Names) -> Vec<u8> {
    match random.below(20) {
        0 => Vec::new(),
        1 => b"\n\n# nothing\n\n".to_vec(),
        2 | 3 => text[..text.len() - 1].to_vec(),
        4 if names.has("repeat") => [&text[..], b"repeat 2\n"].concat(),
        5 if names.has("repeat") => {
            let line = random.pick(&REPEATS);
            insert(random, &text, line)
        }
        6 => {
            let line = longest_line(random, names);
            insert(random, &text, &line)
        }
        7 => {
            let line = random.pick(&NAMELESS);
            insert(random, &text, line)
        }
        8 if !bare_calls(names).is_empty() => {
            let line = random.pick(&bare_calls(names)).name;
            let lent = random.pick(&["", "", " lent 4"]);
            insert(random, &text, format!("{line}{lent}").as_bytes())
        }
        _ => {
            let call = random.pick(&names.calls());
            let line = spoilt_line(random, call);
            insert(random, &text, &line)
        }
    }
}

/// The calls that lack a number when they have none, though they take any count behind it.
fn bare_calls(names: &Names) -> Vec<&'static Call> {
    let mut calls = names.calls();
    calls.retain(|call| call.numbers.any_count() && call.numbers.least() > 0);
    calls
}

/// A line of as many numbers as there may be, or one off that, each with one digit or with the most that it needs.
fn longest_line(random: &mut Random, names: &Names) -> Vec<u8> {
    let mut calls = names.calls();
    if calls.iter().any(|call| call.numbers.any_count()) {
        calls.retain(|call| call.numbers.any_count());
    }
    let name = random.pick(&calls).name;
    let most = MOST_NUMBERS as u64;
    let count = random.between(most - 1, most + 1) as usize;
    let number = random.pick(&[" 0", " 18446744073709551615"]);
    let lent = if random.percent(50) {
        format!(" lent {MOST_LENT}")
    } else {
        String::new()
    };
    format!("{name}{}{lent}", number.repeat(count)).into_bytes()
}

/// Put a line between two of the script's.
fn insert(random: &mut Random, text: &[u8], line: &[u8]) -> Vec<u8> {
    let mut lines: Vec<&[u8]> = text.split(|byte| *byte == b'\n').collect();
    let place = random.below(lines.len() as u64) as usize;
    lines.insert(place, line);
    lines.join(&b'\n')
}

/// A call's line that the grammar, the count or a bound does not allow; at times one that it
/// does, since zeros may lead a number.
fn spoilt_line(random: &mut Random, call: &Call) -> Vec<u8> {
    let count = match call.numbers {
        Numbers::Behind(0) => 9,
        Numbers::Exactly(count) | Numbers::Behind(count) => count,
    };
    let name = call.name;
    let good = format!("{name}{}", " 1".repeat(count));
    let line = match random.below(18) {
        0 => format!("{name}{}", " 1".repeat(count + 1)),
        1 => format!("{name}{}", " 1".repeat(count.saturating_sub(1))),
        2 => format!("{good} "),
        3 => format!(" {good}"),
        4 => good.replacen(' ', "  ", 1),
        5 => good.replacen(' ', "\t", 1),
        6 => format!("{good}\r"),
        7 => good.replacen('1', "18446744073709551616", 1),
        8 => good.replacen('1', "99999999999999999999999999", 1),
        9 => good.replacen('1', "00000000000000000000000001", 1),
        10 => good.replacen(
            '1',
            random.pick(&["-1", "+1", "1.0", "0x1", "1_0", "one", "1,"]),
            1,
        ),
        11 => format!("{good} lent {}", MOST_LENT + 1),
        12 => format!("{good} lent"),
        13 => format!("{good} lent 1 1"),
        14 => format!("{good} lent 1 lent 1"),
        15 => format!(
            "{good} lent {}",
            random.pick(&["x", "-1", "", "18446744073709551616"])
        ),
        16 => good.to_uppercase(),
        _ => format!("{good} lent {MOST_LENT}"),
    };
    line.into_bytes()
}
