//! Damaged memory: flipped bits, wrong links, random words. No call crashes, loops, or writes where nothing may
//! be written; and where the check still says yes, every call answers as it does for the set that is listed.
use crate::keys::{Key, Kind, Maker};
use crate::lent::{self, Lent};
use crate::quick::Quick;
use crate::random::Random;
use crate::run::{audit, call, records_changed, Call, Model, Run};
use nalfipode::raw;

/// One change of the words.
fn damage(table: &mut [u32], random: &mut Random) {
    let records = table.len() / 8 - 1;
    let i = random.below(table.len());
    match random.below(7) {
        0 => table[i] = random.word(),
        1 => table[i / 8 * 8 + 5 + random.below(2)] = random.below(records + 3) as u32,
        2 => table[i / 8 * 8 + 7] = random.below(260) as u32,
        3 => table[random.below(2)] = random.below(records + 3) as u32,
        4 => {
            let from = random.below(records + 1);
            let to = random.below(records + 1);
            table.copy_within(8 * from..8 * from + 8, 8 * to);
        }
        _ => table[i] ^= 1 << random.below(32),
    }
}

/// A change that leaves a table: another number, or other words in a spare record that no link needs.
fn mild(table: &mut [u32], random: &mut Random) {
    let l = 1 + random.below(table.len() / 8 - 1);
    let record = &mut table[8 * l..8 * l + 8];
    record[4] = random.word();
    if record[7] == u32::MAX {
        record[6] = random.word();
        record[0] = random.word();
    }
}

/// Any keyed call on any words: what may be written, and what may be answered.
fn keyed(table: &mut Lent<u32>, k: Key, random: &mut Random) {
    let trail: Vec<u8> = (0..131).map(|_| random.word() as u8).collect();
    let before = table.get().to_vec();
    let what = [Call::Store(random.word()), Call::Remove, Call::Fetch, Call::Match][random.below(4)];
    let got = call(what, table, k.width, k.words(), &trail);
    let nodes = got.values[0] as usize;
    match got.number {
        0 | 7 | 8 => {
            assert!(nodes <= k.width as usize + 1, "{:?}: {} nodes", what, nodes);
            assert_eq!(got.trail[nodes..], trail[nodes..], "{:?}", what);
        }
        6 => {
            assert!(got.values.iter().all(|value| *value == 0), "{:?}", what);
            assert_eq!(got.trail, trail, "{:?}", what);
        }
        number => panic!("{:?} answers {}", what, number),
    }
    let edit = matches!(what, Call::Store(_) | Call::Remove);
    if got.number != 0 || !edit {
        assert_eq!(table.get(), before, "{:?} changed words", what);
    } else {
        assert!(records_changed(&before, table.get()) <= 3, "{:?}", what);
    }
}

fn slice(table: &Lent<u32>, resume: Option<Key>, random: &mut Random) {
    let size = 1 + random.below(9);
    let mut out = lent::words(6 * size + 5, random);
    let before = out.get().to_vec();
    let mut values: Lent<u32> = Lent::new(3, || 0xA5A5_A5A5);
    let k = resume.unwrap_or(Key { bits: 0, width: 0 });
    let flag = u32::from(resume.is_some());
    let number = raw::slice(table.get(), flag, k.width, &k.words(), size as u32, out.lend(), values.array());
    out.guarded();
    values.guarded();
    table.guarded();
    match number {
        0 => {
            let given = values.get()[0] as usize;
            assert!(given <= size);
            assert_eq!(out.get()[6 * given..], before[6 * given..]);
        }
        6 => {
            assert_eq!(values.get(), [0; 3]);
            assert_eq!(out.get()[6 * size..], before[6 * size..]);
        }
        _ => panic!("a slice answers {}", number),
    }
}

/// The image of any words: Damaged, and nothing written, where the check says no; else what the checker accepts.
fn image(table: &Lent<u32>, random: &mut Random) {
    let before = table.get().to_vec();
    let mut out: Lent<u8> = Lent::new(random.below(4000), || 0xA5);
    let mut values: Lent<u64> = Lent::new(1, || 0xA5A5_A5A5_A5A5_A5A5);
    let number = raw::image_write(table.get(), random.next(), out.lend(), values.array());
    out.guarded();
    values.guarded();
    table.guarded();
    assert_eq!(table.get(), before);
    let length = values.get()[0] as usize;
    let accepted = audit(table) == 1;
    let written = match number {
        0 if accepted => {
            assert_eq!(raw::image_verify(&out.get()[..length]), 0);
            length
        }
        5 if accepted => {
            assert!(length > out.get().len());
            0
        }
        6 if !accepted => {
            assert_eq!(length, 0);
            0
        }
        _ => panic!("the writer answers {}, the check says {}", number, accepted),
    };
    assert!(out.get()[written..].iter().all(|byte| *byte == 0xA5), "written past the image");
}

/// The table's words taken as they are, and the set that they list as the model.
fn reopened(words: &[u32], seed: u64) -> Run<Quick> {
    let mut run = Run::<Quick>::new(words.len() / 8 - 1, seed, 1);
    run.table.lend().copy_from_slice(words);
    let mut out = vec![0; 6 * 4096];
    let mut values = [0; 3];
    assert_eq!(raw::slice(words, 0, 0, &[0; 4], 4096, &mut out, &mut values), 0);
    for six in out[..6 * values[0] as usize].chunks_exact(6) {
        run.model.put(Key::of_words(&six[..4], six[4]), six[5]);
    }
    run
}

#[test]
fn calls_on_damaged_tables() {
    let (mut yes, mut no) = (0, 0);
    for seed in 0..1500u64 {
        let kind = [Kind::Short(6), Kind::Extended, Kind::Cells][seed as usize % 3];
        let mut run = Run::<Quick>::new(1 + seed as usize % 40, 9000 + seed, 1000);
        let mut maker = Maker::new(kind);
        for _ in 0..50 {
            let k = maker.key(&mut run.random);
            let what = if run.random.often(4, 5) { Call::Store(k.width) } else { Call::Remove };
            run.call(what, k);
        }
        let change = if seed % 4 == 0 { mild } else { damage };
        for _ in 0..1 + run.random.below(4) {
            change(run.table.lend(), &mut run.random);
        }
        image(&run.table, &mut run.random);
        if audit(&run.table) == 1 {
            yes += 1;
            let mut again = reopened(run.table.get(), seed);
            for _ in 0..30 {
                let k = maker.key(&mut again.random);
                let what = [Call::Store(1), Call::Remove, Call::Fetch, Call::Match][again.random.below(4)];
                again.call(what, k);
                again.slice(Some(k), 3);
            }
            continue;
        }
        no += 1;
        for _ in 0..60 {
            let k = maker.key(&mut run.random);
            keyed(&mut run.table, k, &mut run.random);
            let resume = if run.random.often(1, 3) { None } else { Some(k) };
            slice(&run.table, resume, &mut run.random);
            audit(&run.table);
        }
    }
    assert!(yes > 300 && no > 800, "{} accepted, {} not", yes, no);
}

#[test]
fn calls_on_random_words() {
    let mut random = Random::new(11);
    for round in 0..3000 {
        let records = 1 + random.below(if round % 50 == 0 { 2000 } else { 30 });
        let shift = random.below(32);
        let mut table: Lent<u32> = Lent::new(8 + 8 * records, || random.word() >> random.below(shift + 1));
        for link in [0, 1] {
            table.lend()[link] = random.below(records + 2) as u32;
        }
        if random.often(1, 2) {
            // links that stay inside, and tags of nodes: calls go further
            for record in table.lend()[8..].chunks_exact_mut(8) {
                record[5] = random.below(records + 1) as u32;
                record[6] = random.below(records + 1) as u32;
                record[7] = random.below(258) as u32;
                if random.often(2, 3) {
                    record[..4].copy_from_slice(&[0; 4]);
                }
            }
        }
        image(&table, &mut random);
        for _ in 0..20 {
            let width = random.below(129) as u32;
            let k = Key::of(if random.often(1, 2) { 0 } else { random.wide() }, width);
            keyed(&mut table, k, &mut random);
            let resume = if random.often(1, 3) { None } else { Some(k) };
            slice(&table, resume, &mut random);
            audit(&table);
        }
    }
}
