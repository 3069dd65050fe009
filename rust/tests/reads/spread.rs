//! One table for all calls on a set: each node, and each of the first two spare records, on a page of its
//! own, as the page's first record or its last. What else is open are spare records far down the chain.
use crate::layout::{Layout, SPARE};
use crate::memory::{page_words, Memory};
use crate::place::{shuffle, Place};
use crate::random::Random;
use crate::rules::{may_read, Ask};
use crate::set::Set;
use crate::trial::Placed;
use std::ops::Range;

/// Pages beside those of the nodes: two for spare records, one for what follows them in the chain.
const BESIDE: usize = 3;

pub struct Spread {
    memory: Memory,
    random: Random,
}

/// The records on a page: page 0 ends with the header, and a record starts each page after it.
fn records_on(page: usize) -> Range<usize> {
    let many = page_words() / 8;
    if page == 0 {
        0..1
    } else {
        1 + (page - 1) * many..1 + page * many
    }
}

impl Spread {
    /// For sets of at most so many nodes; 508 is the most that a table has pages of 4,096 bytes for.
    pub fn new(nodes: usize, seed: u64) -> Spread {
        Spread { memory: Memory::new(1 + nodes + BESIDE), random: Random::new(seed) }
    }

    fn layout(&mut self, set: &Set) -> Layout {
        let count = set.nodes.len();
        let mut pages: Vec<usize> = (1..=count + BESIDE).collect();
        shuffle(&mut pages, &mut self.random);
        let random = &mut self.random;
        let mut edge = |page: &usize| {
            let records = records_on(*page);
            if random.often(1, 2) {
                records.start
            } else {
                records.end - 1
            }
        };
        let mut nodes: Vec<usize> = pages[..count + 2].iter().map(&mut edge).collect();
        let mut spare = vec![true; records_on(count + BESIDE).end];
        nodes.iter().for_each(|l| spare[*l] = false);
        let mut spares = nodes.split_off(count);
        // the last page, on which nothing else is, comes next in the chain
        spares.extend(pages.iter().rev().flat_map(|page| records_on(*page)).filter(|l| spare[*l]));
        Layout { nodes, spares }
    }
}

impl Place for Spread {
    fn hold(&mut self, set: &Set, asks: &[Ask]) -> usize {
        let layout = self.layout(set);
        let words = layout.words(set, SPARE, &mut self.random);
        let start = page_words() - 8;
        let mut placed = Placed { memory: &mut self.memory, start, set, layout, words };
        placed.write();
        for ask in asks {
            let reads = may_read(*ask, set);
            let may = placed.layout.places(set, &reads.nodes, reads.spares);
            let mut pages: Vec<usize> = may.iter().map(|l| (start + 8 * l) / page_words()).collect();
            pages.push(0);
            placed.memory.open_only(&pages);
            let open: Vec<Range<usize>> = pages.iter().map(|page| records_on(*page)).collect();
            placed.hold(*ask, &may, &open);
        }
        asks.len()
    }
}
