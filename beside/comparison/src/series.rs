//! Several prunes against one: the same calls made twice, pruned at rising clocks and at the last of them alone.

use reference::{ENTRIES, Reply};

/// Stands before the prunes that are set against each other; a dump ends them.
const MARK: &[u8] = b"# prunes";

/// The calls of a script that starts with `new`, made twice. Most of its own prunes are left out, so that more is left to fall, and
/// what may have stood before them: a repeat.
pub fn pair(text: &[u8], clocks: &[u64]) -> Vec<u8> {
    let kept = |(place, line): &(usize, &[u8])| {
        let prune = line.starts_with(b"prune") && place % 8 != 0;
        !prune && !line.starts_with(b"repeat") && !line.starts_with(b"#")
    };
    let lines = text.split(|byte| *byte == b'\n').enumerate().filter(kept);
    let calls: Vec<&[u8]> = lines.map(|(_, line)| line).collect();
    let calls = calls.join(&b'\n');
    let mut pair = Vec::new();
    for clocks in [clocks, &clocks[clocks.len() - 1..]] {
        pair.extend([&calls, MARK, b"\n"].concat());
        for clock in clocks {
            pair.extend(format!("prune {clock} lent {}\n", 3 * ENTRIES).into_bytes());
        }
        pair.extend(b"dump\n");
    }
    pair
}

/// What the prunes after a mark told: the reports, how many fell, and the ledger left.
#[derive(Default, PartialEq)]
struct Told {
    reports: Vec<Vec<u64>>,
    fell: u64,
    dump: Vec<u64>,
}

/// Listens to one script.
#[derive(Default)]
pub struct Listener {
    told: Vec<Told>,
    open: bool,
}

impl Listener {
    pub fn hear(&mut self, line: &[u8], reply: Option<&Reply>) {
        if line == MARK {
            self.told.push(Told::default());
            self.open = true;
        }
        let (Some(told), Some(reply), true) = (self.told.last_mut(), reply, self.open) else {
            return;
        };
        if reply.call.name == "dump" {
            told.dump.clone_from(&reply.said);
            self.open = false;
        } else {
            let reports = reply.lent.chunks_exact(3).take(reply.said[0] as usize);
            told.reports.extend(reports.map(<[u64]>::to_vec));
            told.reports.sort();
            told.fell += reply.said[1];
        }
    }
}

/// How often several prunes told and left what one did.
#[derive(Clone, Copy, Default)]
pub struct Pairs {
    pub equal: u64,
    pub different: u64,
    /// Entries that fell and that were reported, by the prunes at the last clock alone.
    pub fell: u64,
    pub reported: u64,
}

impl Pairs {
    pub fn count(&mut self, heard: &Listener) {
        let [several, one] = &heard.told[..] else {
            return;
        };
        self.equal += u64::from(several == one);
        self.different += u64::from(several != one);
        self.fell += one.fell;
        self.reported += one.reports.len() as u64;
    }
}
