//! The lent table.
use crate::{raw, Prefix, Refusal, Refused, Zone, ENTRY_WORDS};

/// A table in lent words. The words are the whole of it: dropping a `Table` and opening the same words again
/// changes nothing.
pub struct Table<'a> {
    words: &'a mut [u32],
}

/// What an accepted store answers.
#[derive(Clone, Copy, PartialEq, Eq, Debug)]
pub struct Stored {
    /// How many nodes the key's path had before the store.
    pub nodes: usize,
    /// The number that was replaced, if there was one.
    pub old: Option<Zone>,
}

/// What an accepted remove answers.
#[derive(Clone, Copy, PartialEq, Eq, Debug)]
pub struct Removed {
    /// How many nodes the key's path had before the remove.
    pub nodes: usize,
    /// The number taken out.
    pub zone: Zone,
}

/// What an accepted fetch answers.
#[derive(Clone, Copy, PartialEq, Eq, Debug)]
pub struct Fetched {
    /// How many nodes the key's path has.
    pub nodes: usize,
    /// The stored number.
    pub zone: Zone,
}

/// The longest stored prefix of a key: its width and its number.
#[derive(Clone, Copy, PartialEq, Eq, Debug)]
pub struct Match {
    /// The prefix is as many of the key's first bits.
    pub width: u32,
    /// Its number.
    pub zone: Zone,
}

/// What an accepted longest match answers.
#[derive(Clone, Copy, PartialEq, Eq, Debug)]
pub struct Matched {
    /// How many nodes the key's path has.
    pub nodes: usize,
    /// The longest stored prefix of the key, or none.
    pub found: Option<Match>,
}

/// A listed prefix, as it stands in the output. On a table that the check does not accept the words may be no
/// prefix.
#[derive(Clone, Copy, PartialEq, Eq, Debug)]
pub struct Entry {
    /// The four key words.
    pub words: [u32; 4],
    /// The width.
    pub width: u32,
    /// The number.
    pub zone: Zone,
}

impl Entry {
    /// The prefix, or BadPrefix on a table that the check does not accept.
    pub fn prefix(&self) -> Result<Prefix, Refusal> {
        Prefix::new(self.width, self.words)
    }
}

/// What an accepted slice answers, with the part of the output that was written.
#[derive(Clone, Copy, PartialEq, Eq, Debug)]
pub struct Slice<'o> {
    words: &'o [u32],
    /// Whether any stored prefix remains after those given.
    pub more: bool,
    /// How many nodes the slice counts.
    pub count: u32,
}

impl<'o> Slice<'o> {
    /// How many prefixes were given.
    pub fn given(&self) -> usize {
        self.words.len() / ENTRY_WORDS
    }

    /// The prefixes in their order.
    pub fn entries(&self) -> impl Iterator<Item = Entry> + 'o {
        self.words.chunks_exact(ENTRY_WORDS).map(|six| Entry {
            words: [six[0], six[1], six[2], six[3]],
            width: six[4],
            zone: Zone(six[5]),
        })
    }
}

/// A keyed call's number as a result, with the number of nodes where it is refused.
fn keyed(number: u32, nodes: u32) -> Result<usize, Refused> {
    let nodes = nodes as usize;
    match Refusal::or_accepted(number) {
        Ok(()) => Ok(nodes),
        Err(refusal) => Err(Refused { refusal, nodes }),
    }
}

impl<'a> Table<'a> {
    /// Makes the words an empty table; BadLength where their number is not 8 + 8c, c from 1 to 65,535.
    ///
    /// ```
    /// use nalfipode::{Refusal, Table};
    /// assert!(Table::fresh(&mut [7; 16]).is_ok());
    /// assert_eq!(Table::fresh(&mut [7; 15]).err(), Some(Refusal::BadLength));
    /// ```
    pub fn fresh(words: &'a mut [u32]) -> Result<Table<'a>, Refusal> {
        Refusal::or_accepted(raw::fresh(words))?;
        Ok(Table { words })
    }

    /// Takes words as they are, any words: a table made before, or damaged ones. [`audit`](Table::audit) tells.
    ///
    /// ```
    /// use nalfipode::Table;
    /// let mut words = [u32::MAX; 16];
    /// assert_eq!(Table::open(&mut words).audit(), Ok(false));
    /// ```
    pub fn open(words: &'a mut [u32]) -> Table<'a> {
        Table { words }
    }

    /// The words.
    pub fn words(&self) -> &[u32] {
        self.words
    }

    /// Stores a number for the key, in place of the old one if there is one. The trail takes the widths of the
    /// path's nodes, from the set as it stood before; the bytes after them stay. Refused: BadLength, ShortOut,
    /// Damaged, and Full exactly where the tree of the new set has more nodes than the table has records.
    ///
    /// ```
    /// use nalfipode::{Prefix, Table, Zone, TRAIL_BYTES};
    /// let mut words = [0; 24];
    /// let mut trail = [0; TRAIL_BYTES];
    /// let mut table = Table::fresh(&mut words).unwrap();
    /// assert_eq!(table.store(Prefix::EMPTY, Zone(1), &mut trail).unwrap().old, None);
    /// assert_eq!(table.store(Prefix::EMPTY, Zone(2), &mut trail).unwrap().old, Some(Zone(1)));
    /// ```
    pub fn store(&mut self, key: Prefix, zone: Zone, trail: &mut [u8]) -> Result<Stored, Refused> {
        let mut values = [0; 3];
        let number = raw::store(self.words, key.width(), &key.words(), zone.0, trail, &mut values);
        let nodes = keyed(number, values[0])?;
        let old = if values[1] == 1 { Some(Zone(values[2])) } else { None };
        Ok(Stored { nodes, old })
    }

    /// Takes the key out. The trail is as for a store. Refused: BadLength, ShortOut, Damaged, Absent.
    ///
    /// ```
    /// use nalfipode::{Prefix, Refusal, Table, Zone, TRAIL_BYTES};
    /// let mut words = [0; 24];
    /// let mut trail = [0; TRAIL_BYTES];
    /// let mut table = Table::fresh(&mut words).unwrap();
    /// table.store(Prefix::EMPTY, Zone(1), &mut trail).unwrap();
    /// assert_eq!(table.remove(Prefix::EMPTY, &mut trail).unwrap().zone, Zone(1));
    /// assert_eq!(table.remove(Prefix::EMPTY, &mut trail).unwrap_err().refusal, Refusal::Absent);
    /// ```
    pub fn remove(&mut self, key: Prefix, trail: &mut [u8]) -> Result<Removed, Refused> {
        let mut values = [0; 2];
        let number = raw::remove(self.words, key.width(), &key.words(), trail, &mut values);
        let nodes = keyed(number, values[0])?;
        Ok(Removed { nodes, zone: Zone(values[1]) })
    }

    /// The number stored for exactly this key. The trail is as for a store. Refused: BadLength, ShortOut,
    /// Damaged, Absent.
    ///
    /// ```
    /// use nalfipode::{Prefix, Table, Zone, TRAIL_BYTES};
    /// let mut words = [0; 24];
    /// let mut trail = [0; TRAIL_BYTES];
    /// let mut table = Table::fresh(&mut words).unwrap();
    /// table.store(Prefix::EMPTY, Zone(0), &mut trail).unwrap();
    /// let answer = table.fetch(Prefix::EMPTY, &mut trail).unwrap();
    /// assert_eq!((answer.nodes, answer.zone), (1, Zone(0)));
    /// ```
    pub fn fetch(&self, key: Prefix, trail: &mut [u8]) -> Result<Fetched, Refused> {
        let mut values = [0; 2];
        let number = raw::fetch(self.words, key.width(), &key.words(), trail, &mut values);
        let nodes = keyed(number, values[0])?;
        Ok(Fetched { nodes, zone: Zone(values[1]) })
    }

    /// The longest stored prefix of the key, if there is one. The trail is as for a store. Refused: BadLength,
    /// ShortOut, Damaged.
    ///
    /// ```
    /// use nalfipode::{Table, Zone, TRAIL_BYTES};
    /// let mut words = [0; 24];
    /// let mut trail = [0; TRAIL_BYTES];
    /// let mut table = Table::fresh(&mut words).unwrap();
    /// table.store("0".parse()?, Zone(5), &mut trail).unwrap();
    /// assert_eq!(table.longest_match("01".parse()?, &mut trail).unwrap().found.unwrap().zone, Zone(5));
    /// assert_eq!(table.longest_match("10".parse()?, &mut trail).unwrap().found, None);
    /// # Ok::<(), nalfipode::Refusal>(())
    /// ```
    pub fn longest_match(&self, key: Prefix, trail: &mut [u8]) -> Result<Matched, Refused> {
        let mut values = [0; 4];
        let number = raw::longest_match(self.words, key.width(), &key.words(), trail, &mut values);
        let nodes = keyed(number, values[0])?;
        let found = if values[1] == 1 { Some(Match { width: values[2], zone: Zone(values[3]) }) } else { None };
        Ok(Matched { nodes, found })
    }

    /// The first `size` stored prefixes strictly after `resume`, or from the first one. `out` has six words for
    /// each; the words after those given stay. Refused: BadLength, BadSize, ShortOut, Damaged.
    ///
    /// ```
    /// use nalfipode::{Prefix, Table, Zone, TRAIL_BYTES};
    /// let mut words = [0; 40];
    /// let mut trail = [0; TRAIL_BYTES];
    /// let mut out = [0; 6];
    /// let mut table = Table::fresh(&mut words).unwrap();
    /// table.store("0".parse()?, Zone(1), &mut trail).unwrap();
    /// table.store("01".parse()?, Zone(2), &mut trail).unwrap();
    /// let mut zones = Vec::new();
    /// let mut resume = None;
    /// loop {
    ///     let slice = table.slice(resume, 1, &mut out)?;
    ///     for entry in slice.entries() {
    ///         resume = Some(entry.prefix()?);
    ///         zones.push(entry.zone);
    ///     }
    ///     if !slice.more {
    ///         break;
    ///     }
    /// }
    /// assert_eq!(zones, [Zone(1), Zone(2)]);
    /// # Ok::<(), nalfipode::Refusal>(())
    /// ```
    pub fn slice<'o>(&self, resume: Option<Prefix>, size: u32, out: &'o mut [u32]) -> Result<Slice<'o>, Refusal> {
        let mut values = [0; 3];
        let key = resume.unwrap_or(Prefix::EMPTY);
        let flag = u32::from(resume.is_some());
        let number = raw::slice(self.words, flag, key.width(), &key.words(), size, out, &mut values);
        Refusal::or_accepted(number)?;
        let words = &out[..ENTRY_WORDS * values[0] as usize];
        Ok(Slice { words, more: values[1] == 1, count: values[2] })
    }

    /// Whether the words are a table of some set, every record in its place. Refused: BadLength.
    ///
    /// ```
    /// assert_eq!(nalfipode::Table::fresh(&mut [0; 16]).unwrap().audit(), Ok(true));
    /// ```
    pub fn audit(&self) -> Result<bool, Refusal> {
        let mut values = [0; 1];
        Refusal::or_accepted(raw::audit(self.words, &mut values))?;
        Ok(values[0] == 1)
    }
}

#[cfg(test)]
mod tests {
    use super::*;
    use crate::{table_words, TRAIL_BYTES};

    fn of(text: &str) -> Prefix {
        text.parse().unwrap()
    }

    /// Set A of paper 01 in a table of 8 records.
    fn set_a(words: &mut [u32]) -> Table<'_> {
        let mut table = Table::fresh(words).unwrap();
        for (bits, zone) in [("00", 10), ("01", 20), ("0110", 30)] {
            table.store(of(bits), Zone(zone), &mut [0; TRAIL_BYTES]).unwrap();
        }
        table
    }

    #[test]
    fn m2_to_m5() {
        let mut words = [0; table_words(8)];
        let table = set_a(&mut words);
        let twenty = Some(Match { width: 2, zone: Zone(20) });
        let rows: [(&str, &[u8], Option<Match>); 4] =
            [("0111", &[1, 2, 4], twenty), ("0101", &[1, 2], twenty), ("1", &[1], None), ("", &[1], None)];
        for (bits, path, found) in rows {
            let mut trail = [9; TRAIL_BYTES];
            let answer = table.longest_match(of(bits), &mut trail).unwrap();
            assert_eq!((&trail[..answer.nodes], answer.found), (path, found), "{}", bits);
            assert!(trail[answer.nodes..].iter().all(|byte| *byte == 9));
        }
    }

    #[test]
    fn m6_a_branch_node_goes_with_its_second_branch() {
        let mut words = [0; table_words(8)];
        let mut table = set_a(&mut words);
        let mut trail = [0; TRAIL_BYTES];
        assert_eq!(table.remove(of("00"), &mut trail), Ok(Removed { nodes: 2, zone: Zone(10) }));
        let answer = table.fetch(of("0110"), &mut trail).unwrap();
        assert_eq!(trail[..answer.nodes], [2, 4]);
        assert_eq!(table.audit(), Ok(true));
    }

    #[test]
    fn m7_full_counts_the_nodes_of_the_new_set() {
        let mut words = [0; table_words(2)];
        let mut trail = [0; TRAIL_BYTES];
        let mut table = Table::fresh(&mut words).unwrap();
        table.store(of("0"), Zone(1), &mut trail).unwrap();
        let refused = table.store(of("10"), Zone(2), &mut trail).unwrap_err();
        assert_eq!((refused.refusal, &trail[..refused.nodes]), (Refusal::Full, &[1u8][..]));
        assert_eq!(table.store(of("00"), Zone(3), &mut trail), Ok(Stored { nodes: 1, old: None }));
    }

    #[test]
    fn m8_a_branch_node_takes_a_number() {
        let mut words = [0; table_words(3)];
        let mut trail = [0; TRAIL_BYTES];
        let mut table = Table::fresh(&mut words).unwrap();
        table.store(of("0"), Zone(1), &mut trail).unwrap();
        table.store(of("10"), Zone(2), &mut trail).unwrap();
        assert_eq!(table.store(Prefix::EMPTY, Zone(3), &mut trail), Ok(Stored { nodes: 1, old: None }));
    }

    #[test]
    fn m9_in_slices_of_two() {
        let mut words = [0; table_words(8)];
        let table = set_a(&mut words);
        let mut out = [7; 13];
        let first = table.slice(None, 2, &mut out).unwrap();
        let keys: Vec<Prefix> = first.entries().map(|entry| entry.prefix().unwrap()).collect();
        assert_eq!((keys, first.count, first.more), (vec![of("00"), of("01")], 3, true));
        let second = table.slice(Some(of("01")), 2, &mut out).unwrap();
        let zones: Vec<Zone> = second.entries().map(|entry| entry.zone).collect();
        assert_eq!((zones, second.given(), second.count, second.more), (vec![Zone(30)], 1, 3, false));
        assert_eq!(out[12], 7);
    }

    #[test]
    fn each_refusal_of_a_table() {
        let mut words = [0; table_words(8)];
        let mut trail = [0; TRAIL_BYTES];
        let mut table = set_a(&mut words);
        assert_eq!(table.fetch(of("0"), &mut trail), Err(Refused { refusal: Refusal::Absent, nodes: 1 }));
        assert_eq!(table.remove(of("1"), &mut trail).unwrap_err().refusal, Refusal::Absent);
        assert_eq!(table.fetch(of("0"), &mut trail[..128]).unwrap_err().refusal, Refusal::ShortOut);
        assert_eq!(table.slice(None, 0, &mut []).err(), Some(Refusal::BadSize));
        assert_eq!(table.slice(None, 4_097, &mut []).err(), Some(Refusal::BadSize));
        assert_eq!(table.slice(None, 2, &mut [0; 11]).err(), Some(Refusal::ShortOut));
        words[0] = 9;
        let table = Table::open(&mut words);
        assert_eq!(table.audit(), Ok(false));
        assert_eq!(table.fetch(of("0"), &mut trail), Err(Refused { refusal: Refusal::Damaged, nodes: 0 }));
        assert_eq!(Table::open(&mut [0; 20]).audit(), Err(Refusal::BadLength));
    }
}
