//! Call scripts: one line in, one line out, as the format's page lays down.
//!
//! Where that page leaves room it is read by its grammar: `lent` may follow any call and says
//! nothing to one that takes no list; it comes last and has one number, at most 8,192, which is
//! not among the line's 8,192; zeros may lead a number; a carriage return, a tab, a sign or a
//! second space belongs to no number. `repeat` has one number from 1 and no `lent`, passes over
//! empty lines and comments, may not be followed by another `repeat`, and is nothing at the end.

use crate::book::Book;
use crate::table::{Call, Given, call_named};

/// What each lent word holds before a call.
pub const FILLER: u64 = 11_936_128_518_282_651_045;
pub const MOST_LENT: u64 = 8_192;
pub const MOST_NUMBERS: usize = 8_192;

/// What the last call said.
pub struct Reply {
    pub call: &'static Call,
    /// 0, or the refusal's number.
    pub status: u64,
    pub said: Vec<u64>,
    pub lent: Vec<u64>,
}

enum Line {
    Nothing,
    Repeat(u64),
    Call(&'static Call, usize),
}

/// A script under way: the ledger, the line's number and a `repeat` not yet used.
#[derive(Default)]
pub struct Runner {
    pub book: Book,
    pub reply: Option<Reply>,
    /// Those of the last call.
    pub numbers: Vec<u64>,
    line: u64,
    repeat: Option<u64>,
}

/// Run a whole script and append its answers.
pub fn run(script: &[u8], out: &mut Vec<u8>) {
    let mut runner = Runner::default();
    for line in script.split(|byte| *byte == b'\n') {
        if !runner.take(line, out) {
            return;
        }
    }
}

impl Runner {
    /// Take one line; false once a malformed one has stopped the script.
    pub fn take(&mut self, line: &[u8], out: &mut Vec<u8>) -> bool {
        self.line += 1;
        self.reply = None;
        match self.parse(line) {
            Some(Line::Nothing) => true,
            Some(Line::Repeat(times)) => {
                self.repeat = Some(times);
                true
            }
            Some(Line::Call(call, lent)) => {
                let times = self.repeat.take().unwrap_or(1);
                self.make(call, lent, times, out);
                true
            }
            None => {
                out.extend_from_slice(b"? ");
                push_number(self.line, out);
                out.push(b'\n');
                false
            }
        }
    }

    fn make(&mut self, call: &'static Call, lent: usize, times: u64, out: &mut Vec<u8>) {
        let mut reply = Reply {
            call,
            status: 0,
            said: Vec::new(),
            lent: vec![FILLER; lent],
        };
        for _ in 0..times {
            reply.said.clear();
            // Filling nothing would be a store that the processor masks out, at an address where no memory is: some 60 ns.
            if lent > 0 {
                reply.lent.fill(FILLER);
            }
            let given = Given {
                numbers: &self.numbers,
                lent: &mut reply.lent,
                said: &mut reply.said,
            };
            reply.status = call.make(&mut self.book, given).err().unwrap_or(0);
        }
        push_reply(&reply, out);
        self.reply = Some(reply);
    }

    /// None for a malformed line. The numbers of a call are left in `self.numbers`.
    fn parse(&mut self, line: &[u8]) -> Option<Line> {
        if line.is_empty() || line[0] == b'#' {
            return Some(Line::Nothing);
        }
        let mut tokens = line.split(|byte| *byte == b' ');
        let name = tokens.next()?;
        if name == b"repeat" {
            return self.parse_repeat(tokens);
        }
        let call = call_named(name)?;
        let lent = self.parse_numbers(tokens)?;
        let fits = call.numbers.fit(self.numbers.len());
        // A list lent to a call that takes none is left lying.
        let lent = if call.item == 0 { 0 } else { lent };
        fits.then_some(Line::Call(call, lent))
    }

    fn parse_repeat<'a>(&self, mut tokens: impl Iterator<Item = &'a [u8]>) -> Option<Line> {
        let times = number(tokens.next()?)?;
        let fits = times > 0 && tokens.next().is_none() && self.repeat.is_none();
        fits.then_some(Line::Repeat(times))
    }

    /// The numbers, then perhaps `lent` with the length that it gives.
    fn parse_numbers<'a>(&mut self, mut tokens: impl Iterator<Item = &'a [u8]>) -> Option<usize> {
        self.numbers.clear();
        while let Some(token) = tokens.next() {
            if token == b"lent" {
                let lent = number(tokens.next()?)?;
                let fits = lent <= MOST_LENT && tokens.next().is_none();
                return fits.then_some(lent as usize);
            }
            self.numbers.push(number(token)?);
        }
        Some(0)
    }
}

fn number(token: &[u8]) -> Option<u64> {
    if token.is_empty() {
        return None;
    }
    token.iter().try_fold(0u64, |value, byte| {
        let digit = byte.is_ascii_digit().then(|| u64::from(byte - b'0'))?;
        value.checked_mul(10)?.checked_add(digit)
    })
}

fn push_reply(reply: &Reply, out: &mut Vec<u8>) {
    push_number(reply.status, out);
    if reply.status == 0 {
        push_words(&reply.said, out);
    }
    if reply.call.item > 0 {
        push_list(&reply.lent, out);
    }
    out.push(b'\n');
}

/// The list after the call, its untouched end as a count.
fn push_list(lent: &[u64], out: &mut Vec<u8>) {
    let kept = lent
        .iter()
        .rev()
        .take_while(|word| **word == FILLER)
        .count();
    out.extend_from_slice(b" /");
    push_words(&lent[..lent.len() - kept], out);
    if kept > 0 || lent.is_empty() {
        out.extend_from_slice(b" *");
        push_number(kept as u64, out);
    }
}

fn push_words(words: &[u64], out: &mut Vec<u8>) {
    for word in words {
        out.push(b' ');
        push_number(*word, out);
    }
}

fn push_number(mut word: u64, out: &mut Vec<u8>) {
    let mut digits = [0; 20];
    let mut place = digits.len();
    loop {
        place -= 1;
        digits[place] = b'0' + (word % 10) as u8;
        word /= 10;
        if word == 0 {
            break;
        }
    }
    out.extend_from_slice(&digits[place..]);
}
