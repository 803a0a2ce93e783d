//! The ledger in plain Rust, as the rules have it: what a snapshot's words say, which words are a snapshot, and what a prune does. It is
//! written from the rules alone, and is slow and short.

#[derive(Clone, Debug, PartialEq)]
pub struct Edge {
    pub id: u64,
    pub from: u64,
    pub kind: u64,
    pub to: Vec<u64>,
}

#[derive(Clone, Copy, Debug, PartialEq)]
pub enum Part {
    Whole,
    Leg,
    Core,
    Remainder,
}

#[derive(Clone, Debug, PartialEq)]
pub struct Entry {
    pub transaction: u64,
    pub at: u64,
    pub end: u64,
    pub anchor: u64,
    pub charge: u64,
    pub decomposed: u64,
    pub routes: Vec<u64>,
    pub core: Vec<u64>,
    pub edges: Vec<Edge>,
    pub part: Part,
    pub certificate: u64,
    pub named: u64,
    pub returned: u64,
    pub absences: Vec<(u64, u64)>,
    pub marks: Vec<u64>,
}

#[derive(Clone, Debug, PartialEq)]
pub struct Departure {
    pub shard: u64,
    pub cut: u64,
    pub stamped: u64,
    pub until: u64,
}

#[derive(Clone, Debug, PartialEq)]
pub struct Plain {
    pub local: u64,
    pub v: u64,
    pub c: u64,
    pub l: u64,
    /// Shard and count each.
    pub counts: Vec<(u64, u64)>,
    pub entries: Vec<Entry>,
    pub departures: Vec<Departure>,
}

#[derive(Clone, Debug, PartialEq)]
pub struct Pruned {
    pub reports: Vec<(u64, u64, u64)>,
    pub fallen: u64,
}

pub fn is_time(n: u64) -> bool {
    n < 1 << 48
}

pub fn is_shard(n: u64) -> bool {
    (1..1 << 33).contains(&n)
}

pub fn is_span(n: u64) -> bool {
    (1..=1 << 40).contains(&n)
}

/// Whether a shard owns a route: the route's top bits, as many as the shard is deep, are the shard less its highest one bit.
pub fn owns(shard: u64, route: u64) -> bool {
    let depth = shard.ilog2();
    let top = if depth == 0 { 0 } else { route >> (64 - depth) };
    top == shard - (1 << depth)
}

fn rises<T: PartialOrd>(items: &[T]) -> bool {
    items.windows(2).all(|pair| pair[0] < pair[1])
}

impl Entry {
    fn words(&self) -> Vec<u64> {
        let edges = &self.edges;
        let mut w = vec![
            self.routes.len() as u64,
            self.core.len() as u64,
            edges.len() as u64,
        ];
        w.extend([
            self.transaction,
            self.at,
            self.end,
            self.anchor,
            self.charge,
            self.decomposed,
        ]);
        w.extend(&self.routes);
        w.extend(&self.core);
        w.extend(edges.iter().map(|e| e.id));
        w.extend(edges.iter().map(|e| e.from));
        w.extend(edges.iter().map(|e| e.kind));
        w.extend(edges.iter().map(|e| e.to.len() as u64));
        w.extend(edges.iter().flat_map(|e| e.to.clone()));
        w.extend([
            self.part as u64,
            self.certificate,
            self.named,
            self.returned,
        ]);
        w.push(self.absences.len() as u64);
        w.extend(self.absences.iter().flat_map(|a| [a.0, a.1]));
        w.push(self.marks.len() as u64);
        w.extend(&self.marks);
        w
    }

    /// The keys of the records that the entry issued.
    pub fn issued(&self, local: u64) -> Vec<u64> {
        self.edges
            .iter()
            .filter(|e| e.from == local)
            .map(|e| e.id % (1 << 32))
            .collect()
    }

    /// Whether some ledger that calls reach, of the shard local, has this entry.
    fn is_reached(&self, local: u64) -> bool {
        let times = [self.at, self.end, self.anchor].iter().all(|t| is_time(*t));
        let edges = self.edges.iter().all(|e| {
            is_shard(e.from) && e.kind <= 1 && rises(&e.to) && e.to.iter().all(|s| is_shard(*s))
        });
        let core = rises(&self.core) && self.core.iter().all(|s| is_shard(*s));
        let here = self.core.contains(&local);
        let part = match self.part {
            Part::Whole => self.decomposed == 0 && self.core.is_empty() && self.edges.is_empty(),
            Part::Leg => self.decomposed == 1 && !here,
            Part::Core => self.decomposed == 1 && here,
            Part::Remainder => {
                self.decomposed == 1
                    && here
                    && self.edges.iter().any(|e| e.from == local && e.kind == 1)
            }
        };
        let issued = self.issued(local);
        let marks = match self.part {
            Part::Whole | Part::Core => self.marks.is_empty() && self.returned == 0,
            Part::Leg | Part::Remainder => {
                rises(&self.marks)
                    && self.marks.iter().all(|m| issued.contains(m))
                    && (self.returned == 0 || !self.marks.is_empty())
            }
        };
        let absences = rises(&self.absences) && self.absences.iter().all(|a| is_shard(a.0));
        let codes = self.certificate <= 2
            && self.returned <= 1
            && (self.named == 0 || is_shard(self.named));
        times && edges && core && part && marks && absences && codes
    }
}

/// The words of one entry, if they are as many as their sizes require, each within its limit; whether its part is one of the four.
fn entry_in(w: &[u64]) -> Option<(Entry, bool)> {
    let mut next = Cursor { words: w, at: 0 };
    let (r, c, e) = (next.size(8)?, next.size(8)?, next.size(8)?);
    let figures = next.take(6)?;
    let routes = next.take(r)?;
    let core = next.take(c)?;
    let (ids, froms, kinds) = (next.take(e)?, next.take(e)?, next.take(e)?);
    let mut sizes = Vec::new();
    for _ in 0..e {
        sizes.push(next.size(4)?);
    }
    let mut edges = Vec::new();
    for i in 0..e {
        edges.push(Edge {
            id: ids[i],
            from: froms[i],
            kind: kinds[i],
            to: next.take(sizes[i])?,
        });
    }
    let codes = next.take(4)?;
    let a = next.size(8)?;
    let absences = next
        .take(2 * a)?
        .chunks(2)
        .map(|pair| (pair[0], pair[1]))
        .collect();
    let m = next.size(8)?;
    let marks = next.take(m)?;
    if next.at != w.len() {
        return None;
    }
    let part = match codes[0] {
        1 => Part::Leg,
        2 => Part::Core,
        3 => Part::Remainder,
        _ => Part::Whole,
    };
    let entry = Entry {
        transaction: figures[0],
        at: figures[1],
        end: figures[2],
        anchor: figures[3],
        charge: figures[4],
        decomposed: figures[5],
        routes,
        core,
        edges,
        part,
        certificate: codes[1],
        named: codes[2],
        returned: codes[3],
        absences,
        marks,
    };
    Some((entry, codes[0] <= 3))
}

/// Words read one after the other.
struct Cursor<'a> {
    words: &'a [u64],
    at: usize,
}

impl Cursor<'_> {
    fn take(&mut self, n: usize) -> Option<Vec<u64>> {
        let taken = self.words.get(self.at..)?.get(..n)?.to_vec();
        self.at += n;
        Some(taken)
    }

    /// A size that is within its limit.
    fn size(&mut self, limit: u64) -> Option<usize> {
        let n = self.take(1)?[0];
        (n <= limit).then_some(n as usize)
    }
}

impl Plain {
    pub fn empty(local: u64, v: u64, c: u64, l: u64) -> Plain {
        Plain {
            local,
            v,
            c,
            l,
            counts: vec![],
            entries: vec![],
            departures: vec![],
        }
    }

    pub fn words(&self) -> Vec<u64> {
        let entries: Vec<_> = self.entries.iter().map(Entry::words).collect();
        let mut w = vec![self.local, self.v, self.c, self.l];
        w.push(self.counts.len() as u64);
        w.extend(self.counts.iter().flat_map(|c| [c.0, c.1]));
        w.extend([entries.len() as u64, self.departures.len() as u64]);
        w.extend(entries.iter().map(|e| e.len() as u64));
        w.extend(entries.concat());
        w.extend(
            self.departures
                .iter()
                .flat_map(|d| [d.shard, d.cut, d.stamped, d.until]),
        );
        w
    }

    pub fn bytes(&self) -> Vec<u8> {
        bytes_of(&self.words())
    }

    /// What the words say, or the number of the refusal: 12 of the form, 13 of all else.
    pub fn read(words: &[u64]) -> Result<Plain, u64> {
        let (ledger, are_parts) = Plain::formed(words).ok_or(12u64)?;
        if are_parts && ledger.is_reached() {
            Ok(ledger)
        } else {
            Err(13)
        }
    }

    pub fn read_bytes(bytes: &[u8]) -> Result<Plain, u64> {
        let (words, rest) = bytes.as_chunks();
        let words: Vec<u64> = words.iter().map(|w| u64::from_le_bytes(*w)).collect();
        if rest.is_empty() {
            Plain::read(&words)
        } else {
            Err(12)
        }
    }

    fn formed(words: &[u64]) -> Option<(Plain, bool)> {
        let mut next = Cursor { words, at: 0 };
        let front = next.take(4)?;
        let k = next.size(32)?;
        let pairs = next.take(2 * k)?;
        let (n, m) = (next.size(48)?, next.size(32)?);
        let lengths = next.take(n)?;
        let mut entries = Vec::new();
        let mut are_parts = true;
        for length in lengths {
            let (entry, is_part) = entry_in(&next.take(usize::try_from(length).ok()?)?)?;
            entries.push(entry);
            are_parts &= is_part;
        }
        let rows = next.take(4 * m)?;
        let departures = rows
            .chunks(4)
            .map(|d| Departure {
                shard: d[0],
                cut: d[1],
                stamped: d[2],
                until: d[3],
            })
            .collect();
        let ledger = Plain {
            local: front[0],
            v: front[1],
            c: front[2],
            l: front[3],
            counts: pairs.chunks(2).map(|c| (c[0], c[1])).collect(),
            entries,
            departures,
        };
        (next.at == words.len()).then_some((ledger, are_parts))
    }

    fn is_reached(&self) -> bool {
        let departures = self.departures.iter().all(|d| {
            let until = if d.stamped == 0 {
                d.until == 0
            } else {
                is_time(d.until)
            };
            is_shard(d.shard) && is_time(d.cut) && d.stamped <= 1 && until
        });
        let counts = self.counts.iter().all(|c| is_shard(c.0) && c.1 > 0);
        is_shard(self.local)
            && [self.v, self.c, self.l].iter().all(|s| is_span(*s))
            && counts
            && rises(&self.counts.iter().map(|c| c.0).collect::<Vec<_>>())
            && self.entries.iter().all(|e| e.is_reached(self.local))
            && rises(
                &self
                    .entries
                    .iter()
                    .map(|e| e.transaction)
                    .collect::<Vec<_>>(),
            )
            && departures
            && rises(&self.departures.iter().map(|d| d.shard).collect::<Vec<_>>())
    }

    /// The five rules, and then the departures that survivors need.
    pub fn prune(&mut self, now: u64) -> Pruned {
        let mut pruned = Pruned {
            reports: vec![],
            fallen: 0,
        };
        let mut stay = Vec::new();
        for e in &self.entries {
            match self.judge(e, now) {
                None => stay.push(e.clone()),
                Some(report) => {
                    pruned.fallen += 1;
                    pruned
                        .reports
                        .extend(report.map(|covered| (e.transaction, covered, e.charge)));
                }
            }
        }
        let needed = |d: &Departure| {
            stay.iter().any(|e| {
                e.named == d.shard || self.remote(e).iter().any(|r| is_over(d, *r, e.anchor))
            })
        };
        let left = self
            .departures
            .iter()
            .filter(|d| needed(d))
            .cloned()
            .collect();
        self.entries = stay;
        self.departures = left;
        pruned
    }

    fn remote(&self, e: &Entry) -> Vec<u64> {
        e.routes
            .iter()
            .copied()
            .filter(|r| !owns(self.local, *r))
            .collect()
    }

    /// None of an entry that stands; of one that falls its report's covered, if it is reported.
    fn judge(&self, e: &Entry, now: u64) -> Option<Option<u64>> {
        let readable = |d: &Departure| d.stamped == 0 || now <= d.until;
        if e.part == Part::Core && e.certificate < 2 {
            return None;
        }
        if matches!(e.part, Part::Leg | Part::Remainder) || !e.absences.is_empty() {
            return (e.end + self.l <= now).then_some(None);
        }
        if e.named != 0 {
            let gone = self.departures.iter().find(|d| d.shard == e.named);
            return (!gone.is_some_and(readable)).then_some(Some(1));
        }
        let remote = self.remote(e);
        if e.certificate > 0 && !remote.is_empty() {
            let answers = remote.iter().any(|r| {
                let over = self.departures.iter().filter(|d| is_over(d, *r, e.anchor));
                over.min_by_key(|d| (d.cut, d.shard)).is_none_or(readable)
            });
            return (!answers).then_some(Some(0));
        }
        (e.at + self.v <= now).then_some(None)
    }
}

fn is_over(d: &Departure, route: u64, anchor: u64) -> bool {
    owns(d.shard, route) && d.cut > anchor
}

pub fn bytes_of(words: &[u64]) -> Vec<u8> {
    words.iter().flat_map(|w| w.to_le_bytes()).collect()
}

/// The bytes that a prune writes to its reports.
pub fn report_bytes(pruned: &Pruned) -> Vec<u8> {
    let mut words = vec![pruned.reports.len() as u64, pruned.fallen];
    words.extend(pruned.reports.iter().flat_map(|r| [r.0, r.1, r.2]));
    bytes_of(&words)
}
