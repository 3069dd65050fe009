//! A table and the models that it is held against, through one call after the other.
use crate::keys::Key;
use crate::lent::{self, Lent};
use crate::random::Random;
use nalfipode::raw;
use nalfipode::{table_words, Refusal};

/// What a slice gives.
#[derive(PartialEq, Debug)]
pub struct Sliced {
    pub given: Vec<(Key, u32)>,
    pub more: bool,
    pub count: u32,
}

/// A set with its zone numbers, by the paper's definitions.
pub trait Model {
    fn get(&self, k: Key) -> Option<u32>;
    fn put(&mut self, k: Key, zone: u32);
    fn take(&mut self, k: Key);
    /// How many nodes the tree has once k is stored.
    fn nodes_with(&self, k: Key) -> usize;
    /// The nodes of the path of k in order.
    fn path(&self, k: Key) -> Vec<Key>;
    /// The width and the number of the longest stored prefix.
    fn longest(&self, k: Key) -> Option<(u32, u32)>;
    fn slice(&self, resume: Option<Key>, size: usize) -> Sliced;
}

/// What a keyed call gave and left.
#[derive(Clone, PartialEq, Debug)]
pub struct Outcome {
    pub number: u32,
    pub values: Vec<u32>,
    pub trail: Vec<u8>,
}

/// The four keyed calls.
#[derive(Clone, Copy, PartialEq, Debug)]
pub enum Call {
    Store(u32),
    Remove,
    Fetch,
    Match,
}

/// Makes the call with everything guarded; the trail is a copy of `trail`.
pub fn call(what: Call, table: &mut Lent<u32>, width: u32, key: [u32; 4], trail: &[u8]) -> Outcome {
    let mut given = trail.iter();
    let mut bytes = Lent::new(trail.len(), || 0xA5u8);
    bytes.lend().iter_mut().for_each(|byte| *byte = *given.next().expect("as many bytes"));
    let mut values: Lent<u32> = Lent::new(4, || 0xA5A5_A5A5);
    let (number, count) = match what {
        Call::Store(zone) => (raw::store(table.lend(), width, &key, zone, bytes.lend(), values.array()), 3),
        Call::Remove => (raw::remove(table.lend(), width, &key, bytes.lend(), values.array()), 2),
        Call::Fetch => (raw::fetch(table.get(), width, &key, bytes.lend(), values.array()), 2),
        Call::Match => (raw::longest_match(table.get(), width, &key, bytes.lend(), values.array()), 4),
    };
    table.guarded();
    bytes.guarded();
    values.guarded();
    assert!(values.get()[count..].iter().all(|word| *word == 0xA5A5_A5A5), "a value too many");
    Outcome { number, values: values.get()[..count].to_vec(), trail: bytes.get().to_vec() }
}

/// What the paper has the call answer for the model's set in a table of so many records, and the trail that it
/// leaves.
pub fn wanted(what: Call, model: &impl Model, records: usize, k: Key, trail: &[u8]) -> Outcome {
    let path: Vec<u8> = model.path(k).iter().map(|node| node.width as u8).collect();
    let n = path.len() as u32;
    let (number, values) = match (what, model.get(k)) {
        (Call::Store(_), None) if model.nodes_with(k) > records => (Refusal::Full.number(), vec![n, 0, 0]),
        (Call::Store(_), None) => (0, vec![n, 0, 0]),
        (Call::Store(_), Some(zone)) => (0, vec![n, 1, zone]),
        (Call::Remove, Some(zone)) | (Call::Fetch, Some(zone)) => (0, vec![n, zone]),
        (Call::Remove, None) | (Call::Fetch, None) => (Refusal::Absent.number(), vec![n, 0]),
        (Call::Match, _) => match model.longest(k) {
            None => (0, vec![n, 0, 0, 0]),
            Some((width, zone)) => (0, vec![n, 1, width, zone]),
        },
    };
    Outcome { number, values, trail: [&path[..], &trail[path.len()..]].concat() }
}

pub fn audit(table: &Lent<u32>) -> u32 {
    let mut values: Lent<u32> = Lent::new(1, || 0xA5A5_A5A5);
    assert_eq!(raw::audit(table.get(), values.array()), 0);
    values.guarded();
    values.get()[0]
}

/// How many node records differ; the header's words 2 to 7 never do.
pub fn records_changed(before: &[u32], after: &[u32]) -> usize {
    assert_eq!(before[2..8], after[2..8], "a header word that no call changes");
    let pairs = before[8..].chunks_exact(8).zip(after[8..].chunks_exact(8));
    pairs.filter(|(a, b)| a != b).count()
}

pub struct Run<M> {
    pub table: Lent<u32>,
    pub records: usize,
    pub model: M,
    pub random: Random,
    /// Every how many edits the whole table is audited and its words compared.
    pub every: usize,
    edits: usize,
}

impl<M: Model + Default> Run<M> {
    pub fn new(records: usize, seed: u64, every: usize) -> Run<M> {
        let mut random = Random::new(seed);
        let mut table = lent::words(table_words(records), &mut random);
        assert_eq!(raw::fresh(table.lend()), 0);
        table.guarded();
        assert_eq!(audit(&table), 1, "a fresh table");
        Run { table, records, model: M::default(), random, every, edits: 0 }
    }

    /// One call, held against the model, which then makes the change too. Gives the call's number.
    pub fn call(&mut self, what: Call, k: Key) -> u32 {
        let room = 129 + self.random.below(8);
        let trail: Vec<u8> = (0..room).map(|_| self.random.word() as u8).collect();
        let wanted = wanted(what, &self.model, self.records, k, &trail);
        self.edits += 1;
        let whole = self.edits % self.every == 0;
        let before = if whole { self.table.get().to_vec() } else { Vec::new() };
        let got = call(what, &mut self.table, k.width, k.words(), &trail);
        assert_eq!(got, wanted, "{:?} of {:?}", what, k);
        match what {
            Call::Store(zone) if got.number == 0 => self.model.put(k, zone),
            Call::Remove if got.number == 0 => self.model.take(k),
            _ => assert!(!whole || before == self.table.get(), "{:?} changed words", what),
        }
        if whole {
            let changed = records_changed(&before, self.table.get());
            assert!(changed <= 3, "{:?} changed {} records", what, changed);
            assert_eq!(audit(&self.table), 1, "{:?} of {:?}", what, k);
        }
        got.number
    }

    /// One slice, held against the model. Gives its last prefix, if any, and whether more remain.
    pub fn slice(&mut self, resume: Option<Key>, size: usize) -> Sliced {
        let wanted = self.model.slice(resume, size);
        let room = 6 * size + self.random.below(8);
        let mut out = lent::words(room, &mut self.random);
        let before = out.get().to_vec();
        let mut values: Lent<u32> = Lent::new(3, || 0xA5A5_A5A5);
        let flag = if resume.is_some() { 1 + self.random.word() / 2 } else { 0 };
        let k = resume.unwrap_or(Key { bits: self.random.wide(), width: self.random.word() });
        let number =
            raw::slice(self.table.get(), flag, k.width, &k.words(), size as u32, out.lend(), values.array());
        assert_eq!(number, 0);
        self.table.guarded();
        out.guarded();
        values.guarded();
        let given = values.get()[0] as usize;
        let entries = out.get()[..6 * given].chunks_exact(6);
        let got = Sliced {
            given: entries.map(|six| (Key::of_words(&six[..4], six[4]), six[5])).collect(),
            more: values.get()[1] == 1,
            count: values.get()[2],
        };
        assert!(values.get()[1] <= 1);
        assert_eq!(got, wanted, "slice of {} after {:?}", size, resume);
        assert_eq!(out.get()[6 * given..], before[6 * given..], "words after the entries");
        got
    }
}
