//! A script run call by call, for tests that look at each of its calls by itself.

use reference::{Book, Runner};

/// A call that was made: its line, the book before it, whether no `repeat` stands before it, and all that is there after it.
pub struct Step<'a> {
    pub line: &'a [u8],
    pub before: Book,
    pub once: bool,
    pub after: &'a Runner,
}

/// Runs a script as far as its lines are calls; what is there in the end.
pub fn each_call(text: &[u8], mut each: impl FnMut(Step)) -> Runner {
    let mut runner = Runner::default();
    let mut repeated = false;
    for line in text.split(|byte| *byte == b'\n') {
        let before = runner.book.clone();
        if !runner.take(line, &mut Vec::new()) {
            break;
        }
        let once = !repeated;
        repeated = line.starts_with(b"repeat") || (repeated && runner.reply.is_none());
        if runner.reply.is_some() {
            let after = &runner;
            each(Step {
                line,
                before,
                once,
                after,
            });
        }
    }
    runner
}
