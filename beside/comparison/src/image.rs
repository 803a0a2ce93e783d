//! A snapshot taken apart, so that one thing of it can be changed, and put down again with sizes and lengths that fit.

use reference::{Book, FILLER, Given, MOST_LENT, Snapshot, call_named};

#[derive(Clone)]
pub struct Image {
    /// Local, V, C, L.
    pub head: [u64; 4],
    /// Shard and count each.
    pub counts: Vec<[u64; 2]>,
    pub entries: Vec<Entry>,
    /// Shard, cut, stamped, until each.
    pub departures: Vec<[u64; 4]>,
}

#[derive(Clone)]
pub struct Entry {
    /// Transaction, at, end, anchor, charge, decomposed.
    pub figures: [u64; 6],
    pub routes: Vec<u64>,
    pub core: Vec<u64>,
    pub edges: Vec<Edge>,
    pub part: u64,
    pub certificate: u64,
    pub named: u64,
    pub returned: u64,
    /// Shard and key each.
    pub absences: Vec<[u64; 2]>,
    pub marks: Vec<u64>,
}

#[derive(Clone)]
pub struct Edge {
    pub id: u64,
    pub from: u64,
    pub kind: u64,
    pub to: Vec<u64>,
}

impl Image {
    /// None where the form is broken.
    pub fn of(words: &[u64]) -> Option<Self> {
        let snapshot = Snapshot::cut(words).ok()?;
        Some(Self {
            head: array(snapshot.head),
            counts: snapshot.counts.into_iter().map(array).collect(),
            entries: snapshot.entries.iter().map(Entry::of).collect(),
            departures: snapshot.departures.into_iter().map(array).collect(),
        })
    }

    pub fn words(&self) -> Vec<u64> {
        let entries: Vec<Vec<u64>> = self.entries.iter().map(Entry::words).collect();
        let mut words = self.head.to_vec();
        words.push(self.counts.len() as u64);
        words.extend(self.counts.iter().flatten());
        words.extend([self.entries.len(), self.departures.len()].map(|size| size as u64));
        words.extend(entries.iter().map(|entry| entry.len() as u64));
        words.extend(entries.into_iter().flatten());
        words.extend(self.departures.iter().flatten());
        words
    }
}

impl Entry {
    fn of(cut: &reference::Entry) -> Self {
        let edge = |place: usize| Edge {
            id: cut.ids[place],
            from: cut.from[place],
            kind: cut.kinds[place],
            to: cut.to[place].to_vec(),
        };
        let [part, certificate, named, returned] = cut.standing;
        Self {
            figures: array(cut.figures),
            routes: cut.routes.to_vec(),
            core: cut.core.to_vec(),
            edges: (0..cut.ids.len()).map(edge).collect(),
            part,
            certificate,
            named,
            returned,
            absences: cut.absences.chunks_exact(2).map(array).collect(),
            marks: cut.marks.to_vec(),
        }
    }

    /// Its words up to the last destination: those of an admission.
    pub fn admission(&self) -> Vec<u64> {
        let sizes = [self.routes.len(), self.core.len(), self.edges.len()];
        let mut words = sizes.map(|size| size as u64).to_vec();
        words.extend(self.figures);
        words.extend(&self.routes);
        words.extend(&self.core);
        words.extend(self.edges.iter().map(|edge| edge.id));
        words.extend(self.edges.iter().map(|edge| edge.from));
        words.extend(self.edges.iter().map(|edge| edge.kind));
        words.extend(self.edges.iter().map(|edge| edge.to.len() as u64));
        words.extend(self.edges.iter().flat_map(|edge| &edge.to));
        words
    }

    fn words(&self) -> Vec<u64> {
        let mut words = self.admission();
        words.extend([self.part, self.certificate, self.named, self.returned]);
        words.push(self.absences.len() as u64);
        words.extend(self.absences.iter().flatten());
        words.push(self.marks.len() as u64);
        words.extend(&self.marks);
        words
    }
}

fn array<const N: usize>(words: &[u64]) -> [u64; N] {
    words.try_into().expect("as many as were cut")
}

/// The snapshot that the Rust writes of a ledger.
pub fn snapshot_of(book: &Book) -> Vec<u64> {
    let (mut lent, mut said) = (vec![FILLER; MOST_LENT as usize], Vec::new());
    let given = Given {
        numbers: &[],
        lent: &mut lent,
        said: &mut said,
    };
    let snapshot = call_named(b"snapshot").expect("a call of the table");
    let made = snapshot.make(&mut book.clone(), given);
    made.expect("a list that long has room for any ledger");
    lent.truncate(said[0] as usize);
    lent
}
