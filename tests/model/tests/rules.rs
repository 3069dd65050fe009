//! A checker that goes rule by rule, as one would write it for use. With all rules it agrees with the model;
//! with any one left out, the broken images show it.

use model::broken::broken;
use model::calls::{Calls, Model};
use model::image::{metadata, BadImage, List, MARKER};
use model::suite;
use std::collections::BTreeSet;

#[derive(Clone, Copy, Debug, PartialEq, Eq)]
enum Rule {
    /// The bytes of marker and metadata, one by one.
    Fixed(usize),
    /// "Values without leading zero bytes", of N and of the epoch.
    CountShort,
    EpochShort,
    /// "any 64-bit number"
    EpochSize,
    /// "16 zero bytes", one by one.
    Zero(usize),
    EntrySize,
    EntryShort,
    Ascending,
    EachOnce,
    /// Nodes are numbered in their order, and every one is reached.
    Order,
    AllReached,
    Depth,
    DataBelow,
    /// "N + 1 to N + 15 are bad."
    Reserved,
    PastData,
    EntryStart,
    EntryUsed,
}

/// The checker without one rule, or with all.
struct Checker(Option<Rule>);

struct Frame {
    n: usize,
    /// Where the data section ends.
    end: usize,
}

impl Checker {
    /// Whether a rule is met, or is the one left out.
    fn ask(&self, rule: Rule, met: bool) -> Option<()> {
        (met || self.0 == Some(rule)).then_some(())
    }

    fn accepts(&self, bytes: &[u8]) -> Option<()> {
        let frame =
            (0..=9).flat_map(|e| (0..=4).map(move |c| (c, e))).find_map(|(c, e)| self.frame(bytes, c, e))?;
        let start = 6 * frame.n + 16;
        let zeros = bytes.get(start - 16..start).filter(|_| start <= frame.end)?;
        for (i, byte) in zeros.iter().enumerate() {
            self.ask(Rule::Zero(i), *byte == 0)?;
        }
        let starts = self.entries(&bytes[start..frame.end])?;
        let mut walk = Walk { checker: self, bytes, frame: &frame, seen: 0, used: BTreeSet::new() };
        let (next, _) = walk.below(0, 0)?;
        let used = std::mem::take(&mut walk.used);
        self.ask(Rule::AllReached, next == frame.n)?;
        self.ask(Rule::EntryStart, used.is_subset(&starts))?;
        self.ask(Rule::EntryUsed, starts.is_subset(&used))
    }

    /// The end of an image whose N has `count` bytes and whose epoch has `epoch`.
    fn frame(&self, bytes: &[u8], count: usize, epoch: usize) -> Option<Frame> {
        let end = bytes.len().checked_sub(MARKER.len() + metadata(&[], &[]).len() + count + epoch)?;
        let at = end + MARKER.len() + 1 + 11 + 1;
        let (n, e) = (&bytes[at..at + count], &bytes[bytes.len() - epoch..]);
        for (i, byte) in MARKER.into_iter().chain(metadata(n, e)).enumerate() {
            self.ask(Rule::Fixed(i), bytes[end + i] == byte)?;
        }
        self.ask(Rule::CountShort, n.first() != Some(&0))?;
        self.ask(Rule::EpochShort, e.first() != Some(&0))?;
        self.ask(Rule::EpochSize, epoch <= 8)?;
        let n = n.iter().fold(0, |v, b| v << 8 | usize::from(*b));
        Some(Frame { n, end })
    }

    /// Where entries start in a data section.
    fn entries(&self, data: &[u8]) -> Option<BTreeSet<usize>> {
        let mut starts = BTreeSet::new();
        let mut last = None;
        let mut at = 0;
        while at < data.len() {
            let size = usize::from(data[at].checked_sub(0xC0)?);
            self.ask(Rule::EntrySize, size <= 4)?;
            let number = data.get(at + 1..at + 1 + size)?;
            self.ask(Rule::EntryShort, number.first() != Some(&0))?;
            let value = number.iter().fold(0u64, |v, b| v << 8 | u64::from(*b));
            self.ask(Rule::Ascending, last.map_or(true, |l| l <= value))?;
            self.ask(Rule::EachOnce, last != Some(value))?;
            last = Some(value);
            starts.insert(at);
            at += 1 + size;
        }
        Some(starts)
    }
}

struct Walk<'a> {
    checker: &'a Checker,
    bytes: &'a [u8],
    frame: &'a Frame,
    seen: usize,
    used: BTreeSet<usize>,
}

impl Walk<'_> {
    /// The next number after those at and below a node, and whether some data is there.
    fn below(&mut self, node: usize, depth: usize) -> Option<(usize, bool)> {
        self.checker.ask(Rule::Depth, depth < 128)?;
        // without the order of numbers a node may be met again and again: no more of them than there are
        self.seen += 1;
        if self.seen > self.frame.n.max(1) {
            return None;
        }
        let (mut next, mut data) = (node + 1, false);
        for at in [6 * node, 6 * node + 3] {
            let record = self.bytes.get(at..at + 3)?.iter().fold(0, |v, b| v << 8 | usize::from(*b));
            let n = self.frame.n;
            if record < n {
                self.checker.ask(Rule::Order, record == next)?;
                let (after, some) = self.below(record, depth + 1)?;
                self.checker.ask(Rule::DataBelow, some)?;
                next = next.max(after);
                data |= some;
            } else if record > n {
                self.checker.ask(Rule::Reserved, record >= n + 16)?;
                let offset = record.saturating_sub(n + 16);
                self.checker.ask(Rule::PastData, 6 * n + 16 + offset < self.frame.end)?;
                if 6 * n + 16 + offset < self.frame.end && record >= n + 16 {
                    self.used.insert(offset);
                }
                data = true;
            }
        }
        Some((next, data))
    }
}

impl Calls for Checker {
    fn write(&self, list: &List, epoch: u64, out: &mut [u8]) -> Result<usize, usize> {
        Model.write(list, epoch, out)
    }

    fn verify(&self, bytes: &[u8]) -> bool {
        self.accepts(bytes).is_some()
    }

    fn look(&self, bytes: &[u8], address: [u32; 4]) -> Result<Option<u32>, BadImage> {
        Model.look(bytes, address)
    }
}

#[test]
fn with_all_rules_it_agrees_with_the_model() {
    suite::all(&Checker(None), 100);
}

#[test]
fn a_rule_left_out_is_shown_by_the_broken_images() {
    let mut rules = vec![
        Rule::CountShort,
        Rule::EpochShort,
        Rule::EpochSize,
        Rule::EntrySize,
        Rule::EntryShort,
        Rule::Ascending,
        Rule::EachOnce,
        Rule::Order,
        Rule::AllReached,
        Rule::Depth,
        Rule::DataBelow,
        Rule::Reserved,
        Rule::PastData,
        Rule::EntryStart,
        Rule::EntryUsed,
    ];
    rules.extend((0..16).map(Rule::Zero));
    // where N stands there is no fixed byte: it is compared with itself
    let fixed = MARKER.len() + metadata(&[4], &[]).len();
    rules.extend((0..fixed).filter(|i| *i != MARKER.len() + 13).map(Rule::Fixed));
    let all = broken();
    for rule in rules {
        let shown = all.iter().any(|(_, bytes)| Checker(Some(rule)).verify(bytes));
        assert!(shown, "{rule:?} could be left out");
    }
}
