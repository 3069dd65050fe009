//! That the test sees what it must. No call is at fault here.
use crate::asks::{keyed, picked, set_of, slices, strings};
use crate::keys::Key;
use crate::layout::SPARE;
use crate::memory::{page_words, Memory};
use crate::packed::{Made, Packed};
use crate::random::Random;
use crate::rules::{may_read, Ask, Reads};
use crate::set::{text, Set};

#[test]
fn what_is_touched_on_shut_pages_is_seen() {
    let mut memory = Memory::new(6);
    memory.words().iter_mut().enumerate().for_each(|(i, word)| *word = i as u32);
    for open in [vec![], vec![0], vec![1, 2, 5], vec![0, 5], vec![0, 1, 2, 3, 4, 5]] {
        memory.open_only(&open);
        for page in 0..6 {
            for word in [page * page_words(), page * page_words() + 9, (page + 1) * page_words() - 1] {
                let shut = if open.contains(&page) { None } else { Some(word) };
                // SAFETY: the word is mapped, and `Memory` lets the read and the write through.
                let read = unsafe { memory.lend(word).read_volatile() };
                assert_eq!((read, memory.touched()), (word as u32, shut));
                unsafe { memory.lend(word).write_volatile(word as u32) };
                assert_eq!(memory.touched(), shut);
            }
        }
    }
}

/// One after the other, each record that a rule allows is shut: the call then touches it, and the test says so.
fn each_is_seen(packed: &mut Packed, set: &Set, ask: Ask, made: Made) {
    let rule = may_read(ask, set);
    for (i, node) in rule.nodes.iter().enumerate() {
        let nodes: Vec<Key> = rule.nodes.iter().filter(|other| *other != node).copied().collect();
        let reads = Reads { nodes, spares: rule.spares };
        let told = packed.placed(set, &reads, made).0.call(ask).expect_err("a node that is not read");
        let name = format!("{} in {} touches the node {}, which", ask, set, text(*node));
        assert!(told.starts_with(&name), "node {} of the rule: {}", i, told);
    }
    for fewer in 0..rule.spares {
        let reads = Reads { nodes: rule.nodes.clone(), spares: fewer };
        let told = packed.placed(set, &reads, made).0.call(ask).expect_err("a spare record that is not read");
        let name = format!("{} in {} touches the spare record {} of the chain, which", ask, set, fewer + 1);
        assert!(told.starts_with(&name), "{}", told);
    }
}

#[test]
fn each_record_that_a_rule_allows_is_read() {
    let members = strings(2);
    let keys = strings(3);
    let mut random = Random::new(9);
    let mut packed = Packed::new(20, 9);
    for mask in 0..1 << members.len() {
        let set = set_of(&picked(&members, mask), &mut random);
        for ask in keyed(&keys).into_iter().chain(slices(&keys, &[1, 2])) {
            let made = Made { spares: 2 + random.below(4), tail: SPARE };
            each_is_seen(&mut packed, &set, ask, made);
        }
    }
}
