//! Times each call of the table beside peers on the same keys.
//!
//!     bench                                 a table of nanoseconds per call, for each kind and size
//!     bench count PEER CALL KIND SIZE N     N calls and nothing else after the set is made, for an instruction
//!                                           counter: the difference of two Ns is what the calls take
//!     bench images                          the image calls, for each kind and size
//!     bench image KIND SIZE FOLDER          an image and questions for bench/reader.c
//!     bench keys KIND SIZE FOLDER           the set and its questions for bench/patricia.c

mod data;
mod images;
mod ours;
mod peer;
mod plain;
mod tree;

use data::{Data, Key, Kind};
use ours::Ours;
use peer::Peer;
use plain::{Map, Sorted};
use std::hint::black_box;
use std::time::Instant;
use tree::Tree;

const CALLS: [&str; 6] = ["match", "fetch", "store", "remove", "slice", "check"];
const SIZES: [usize; 4] = [1_000, 8_000, 20_000, 30_000];
const SLICE: usize = 64;
const ROUNDS: usize = 25;

/// The keys of a set in a peer's own form.
struct Keys<P: Peer> {
    stored: Vec<P::Key>,
    others: Vec<P::Key>,
    questions: Vec<P::Key>,
}

impl<P: Peer> Keys<P> {
    fn of(data: &Data) -> Self {
        let all = |keys: &[Key]| keys.iter().map(|k| P::key(*k)).collect();
        Keys { stored: all(&data.stored), others: all(&data.others), questions: all(&data.questions) }
    }
}

fn filled<P: Peer>(data: &Data) -> P {
    let mut peer = P::new(data.stored.len() + data.others.len());
    let mut trail = [0; 129];
    for (zone, key) in data.stored.iter().enumerate() {
        assert_eq!(peer.store(P::key(*key), zone as u32, &mut trail), None);
    }
    peer
}

/// A peer with the least nanoseconds per call of each kind so far.
struct Timed<P: Peer> {
    peer: P,
    keys: Keys<P>,
    least: Vec<f64>,
}

impl<P: Peer> Timed<P> {
    fn new(data: &Data) -> Self {
        Timed { peer: filled(data), keys: Keys::of(data), least: vec![f64::MAX; CALLS.len()] }
    }

    /// One round of each kind of call. Peers take turns, so that what else the machine does meets them alike.
    fn turn(&mut self) {
        for (i, what) in CALLS.iter().enumerate() {
            if *what == "remove" {
                continue;
            }
            let (first, second) = round(&mut self.peer, &self.keys, what);
            self.least[i] = self.least[i].min(first);
            if *what == "store" {
                self.least[i + 1] = self.least[i + 1].min(second);
            }
        }
    }

    /// None where the peer has no such call.
    fn times(&self) -> Vec<Option<f64>> {
        self.least.iter().map(|t| if *t == f64::MAX { None } else { Some(*t) }).collect()
    }
}

fn per(start: Instant, calls: usize) -> f64 {
    start.elapsed().as_nanos() as f64 / calls as f64
}

/// One round of calls; a round of stores is followed by one of removes.
fn round<P: Peer>(peer: &mut P, keys: &Keys<P>, what: &str) -> (f64, f64) {
    let mut trail = [0; 129];
    let mut out = [0; 6 * SLICE];
    let start = Instant::now();
    match what {
        "match" => {
            for k in &keys.questions {
                black_box(peer.longest(black_box(*k), &mut trail));
            }
            (per(start, keys.questions.len()), 0.0)
        }
        "fetch" => {
            for k in &keys.stored {
                black_box(peer.fetch(black_box(*k), &mut trail));
            }
            (per(start, keys.stored.len()), 0.0)
        }
        "store" => {
            for k in &keys.others {
                black_box(peer.store(black_box(*k), 1, &mut trail));
            }
            let stored = per(start, keys.others.len());
            let start = Instant::now();
            for k in &keys.others {
                black_box(peer.remove(black_box(*k), &mut trail));
            }
            (stored, per(start, keys.others.len()))
        }
        "slice" => {
            for k in &keys.others {
                black_box(peer.slice(Some(black_box(*k)), &mut out));
            }
            (per(start, keys.others.len()), 0.0)
        }
        "check" => match black_box(peer.check()) {
            Some(sound) => {
                assert!(sound);
                (per(start, 1), 0.0)
            }
            None => (f64::MAX, 0.0),
        },
        _ => unreachable!("{}", what),
    }
}

/// Every peer must answer as the first one does. Gives the mean number of nodes on a question's path.
fn agree(data: &Data) -> f64 {
    let (a, b) = (filled::<Ours>(data), filled::<Tree>(data));
    let (c, d) = (filled::<Map>(data), filled::<Sorted>(data));
    let mut first = [0; 129];
    let mut second = [0; 129];
    for k in &data.questions {
        let answer = a.longest(Ours::key(*k), &mut first);
        assert_eq!(answer, b.longest(*k, &mut second));
        assert_eq!(first, second, "the trails of {:?}", k);
        assert_eq!(answer, c.longest(*k, &mut second));
        assert_eq!(answer, d.longest(*k, &mut second));
    }
    let mut outs = [[0; 6 * SLICE]; 4];
    for k in &data.others {
        let given = a.slice(Some(Ours::key(*k)), &mut outs[0]);
        assert_eq!(given, b.slice(Some(*k), &mut outs[1]));
        assert_eq!(given, c.slice(Some(*k), &mut outs[2]));
        assert_eq!(given, d.slice(Some(*k), &mut outs[3]));
        assert!(outs.iter().all(|out| out[..6 * given] == outs[0][..6 * given]));
    }
    let nodes: u32 = data.questions.iter().map(|k| a.nodes(Ours::key(*k))).sum();
    f64::from(nodes) / data.questions.len() as f64
}

fn shown(name: &str, times: &[Option<f64>], ours: &[Option<f64>]) {
    print!("| {} |", name);
    for (time, our) in times.iter().zip(ours) {
        match (time, our) {
            (Some(t), Some(o)) => print!(" {:.0} ({:.2}) |", t, t / o),
            _ => print!(" - |"),
        }
    }
    println!();
}

fn table() {
    for kind in [Kind::Cells, Kind::Routes] {
        for size in SIZES {
            let data = Data::new(kind, size);
            let nodes = agree(&data);
            println!("\n{} {}, {:.1} nodes on a path; ns per call (ratio)\n", size, kind.name(), nodes);
            println!("| | {} |", CALLS.join(" | "));
            println!("|---|{}", "---|".repeat(CALLS.len()));
            let (mut ours, mut tree) = (Timed::<Ours>::new(&data), Timed::<Tree>::new(&data));
            let (mut map, mut sorted) = (Timed::<Map>::new(&data), Timed::<Sorted>::new(&data));
            for _ in 0..ROUNDS {
                ours.turn();
                tree.turn();
                map.turn();
                sorted.turn();
            }
            let least = ours.times();
            shown(Ours::NAME, &least, &least);
            shown(Tree::NAME, &tree.times(), &least);
            shown(Map::NAME, &map.times(), &least);
            shown(Sorted::NAME, &sorted.times(), &least);
        }
    }
}

/// N calls, with nothing between them but to take the next key.
fn each<K: Copy>(keys: &[K], n: usize, mut call: impl FnMut(K)) {
    for k in keys.iter().cycle().take(n) {
        call(*k);
    }
}

/// N calls of one kind: stores of keys that are not in the set, removes of keys that are; so N is at most 1,000
/// for a store, and the set's size for a remove.
fn count<P: Peer>(what: &str, data: &Data, n: usize) {
    let mut peer = filled::<P>(data);
    let keys = Keys::<P>::of(data);
    let mut trail = [0; 129];
    let mut out = [0; 6 * SLICE];
    match what {
        "match" => each(&keys.questions, n, |k| _ = black_box(peer.longest(k, &mut trail))),
        "fetch" => each(&keys.stored, n, |k| _ = black_box(peer.fetch(k, &mut trail))),
        "store" => each(&keys.others, n, |k| _ = black_box(peer.store(k, 1, &mut trail))),
        "remove" => each(&keys.stored, n, |k| _ = black_box(peer.remove(k, &mut trail))),
        "slice" => each(&keys.others, n, |k| _ = black_box(peer.slice(Some(k), &mut out))),
        "check" => each(&keys.others, n, |_| _ = black_box(peer.check())),
        _ => panic!("no call {}", what),
    }
}

fn main() {
    let words: Vec<String> = std::env::args().skip(1).collect();
    if words.is_empty() {
        return table();
    }
    let words: Vec<&str> = words.iter().map(|word| word.as_str()).collect();
    match words[..] {
        ["count", peer, what, kind, size, n] => {
            let data = Data::new(Kind::of(kind), size.parse().expect("a size"));
            let n = n.parse().expect("a number of calls");
            match peer {
                "ours" => count::<Ours>(what, &data, n),
                "tree" => count::<Tree>(what, &data, n),
                "map" => count::<Map>(what, &data, n),
                "sorted" => count::<Sorted>(what, &data, n),
                _ => panic!("no peer {}", peer),
            }
        }
        ["images"] => images::table(),
        ["image", kind, size, folder] => images::files(Kind::of(kind), size.parse().expect("a size"), folder),
        ["keys", kind, size, folder] => Data::new(Kind::of(kind), size.parse().expect("a size")).write(folder),
        _ => panic!("count PEER CALL KIND SIZE N, images, image KIND SIZE FOLDER, or keys KIND SIZE FOLDER"),
    }
}
