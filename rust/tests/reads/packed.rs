//! A table for each call, whose first records are those that the call may read, and a page ends behind them:
//! every other record is shut, and there may be any number of spare ones.
use crate::layout::{Layout, SPARE};
use crate::memory::{page_words, Memory};
use crate::place::{shuffle, Place};
use crate::random::Random;
use crate::rules::{may_read, Ask, Reads};
use crate::run::Call;
use crate::set::Set;
use crate::trial::Placed;

pub struct Packed {
    memory: Memory,
    random: Random,
    /// The word from which on all is shut.
    edge: usize,
}

impl Packed {
    /// For tables of at most so many records.
    pub fn new(records: usize, seed: u64) -> Packed {
        let pages = (8 + 8 * records) / page_words() + 1;
        let mut memory = Memory::new(2 * pages);
        memory.open_only(&(0..pages).collect::<Vec<usize>>());
        Packed { memory, random: Random::new(seed), edge: pages * page_words() }
    }

    /// What may be read comes first, in any order, then the rest; and how many records may be read.
    fn layout(&mut self, set: &Set, reads: &Reads, spares: usize) -> (Layout, usize) {
        let count = set.nodes.len();
        // the nodes are numbered first, then the spare records
        let open = |i: &usize| match set.nodes.get(*i) {
            Some(node) => reads.nodes.contains(node),
            None => *i < count + reads.spares,
        };
        let (mut first, mut rest): (Vec<usize>, Vec<usize>) = (0..count + spares).partition(open);
        shuffle(&mut first, &mut self.random);
        shuffle(&mut rest, &mut self.random);
        let mut nodes = vec![0; count + spares];
        first.iter().chain(&rest).enumerate().for_each(|(l, i)| nodes[*i] = l + 1);
        let spares = nodes.split_off(count);
        (Layout { nodes, spares }, first.len())
    }

    /// A table with so many spare records, open only where it may be read; and how many records that is.
    pub fn placed<'a>(&'a mut self, set: &'a Set, reads: &Reads, made: Made) -> (Placed<'a>, usize) {
        let (layout, may) = self.layout(set, reads, made.spares);
        let words = layout.words(set, made.tail, &mut self.random);
        let start = self.edge - 8 * (1 + may);
        let mut placed = Placed { memory: &mut self.memory, start, set, layout, words };
        placed.write();
        (placed, may)
    }
}

/// How a table is made: its spare records, and the header's last word.
#[derive(Clone, Copy)]
pub struct Made {
    pub spares: usize,
    pub tail: u32,
}

/// The tables to try: for a store, which alone takes spare records, with each small number of them; and now
/// and then one whose header has a last word at which the walk makes no descent.
fn tables(ask: Ask, random: &mut Random) -> Vec<Made> {
    let more = 3 * random.below(3);
    let spares = match ask {
        Ask::Keyed(Call::Store(_), _) => vec![0, 1, 2, 3 + more],
        _ => vec![more],
    };
    let mut tables: Vec<Made> = spares.iter().map(|n| Made { spares: *n, tail: SPARE }).collect();
    if random.often(1, 4) {
        tables.push(Made { spares: random.below(4), tail: random.below(128) as u32 });
    }
    tables
}

impl Place for Packed {
    fn hold(&mut self, set: &Set, asks: &[Ask]) -> usize {
        let mut calls = 0;
        for ask in asks {
            let reads = may_read(*ask, set);
            let tables = tables(*ask, &mut self.random);
            // a table has one record at least
            for made in tables.iter().filter(|made| set.nodes.len() + made.spares > 0) {
                let (mut placed, may) = self.placed(set, &reads, *made);
                let records: Vec<usize> = (1..=may).collect();
                placed.hold(*ask, &records, std::slice::from_ref(&(0..1 + may)));
                calls += 1;
            }
        }
        calls
    }
}
