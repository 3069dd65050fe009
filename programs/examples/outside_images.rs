//! outside_images FOLDER: writes images by the library, and beside each a file of addresses with the zone
//! that the longest match of its list gives, for a reader of the format that no one here wrote
//! (tests/outside/run).

use model::good::good;
use model::image::{bits, look, words, List};
use model::random::Random;
use programs::library::{Table, RECORDS};
use programs::prefix::Prefix;
use programs::zones;
use std::fmt::Write;
use std::fs;

const LINKS: &str = include_str!("../../samples/links/zones.txt");

fn main() -> Result<(), Box<dyn std::error::Error>> {
    let folder = std::env::args().nth(1).ok_or("usage: outside_images FOLDER")?;
    let mut random = Random(31);
    let mut lists: Vec<(String, List, u64)> = Vec::new();
    for (name, list, epoch) in good() {
        let file: String = name.chars().map(|c| if c.is_ascii_alphanumeric() { c } else { '_' }).collect();
        lists.push((file, list, epoch));
    }
    lists.push(("sample_course".into(), links(), 1_794_700_800));
    for i in 0..40 {
        let list = random.list([3, 20, 100, 600][i % 4]);
        lists.push((format!("random_{i}"), list, random.epoch()));
    }
    for (name, list, epoch) in lists {
        fs::write(format!("{folder}/{name}.mmdb"), image(&list, epoch)?)?;
        fs::write(format!("{folder}/{name}.txt"), answers(&list, &mut random)?)?;
    }
    Ok(())
}

/// The sample course's list.
fn links() -> List {
    let zones = zones::read(LINKS.as_bytes()).expect("the sample's list is good");
    let string = |p: Prefix| bits(p.words())[..p.width() as usize].to_vec();
    zones.iter().map(|z| (string(z.prefix), z.number)).collect()
}

/// The image that the library writes.
fn image(list: &List, epoch: u64) -> Result<Vec<u8>, String> {
    let mut table = Table::fresh(RECORDS);
    for (string, zone) in list {
        let prefix =
            Prefix::new(string.len() as u32, words(string)).ok_or("a prefix of these lists is one")?;
        table.store(prefix, *zone).map_err(|_| "a list of these fits a table")?;
    }
    table.image(epoch).map_err(|refusal| refusal.to_string())
}

/// Lines of an address, 32 hex digits, and its zone or `-`, by the longest match of the list.
fn answers(list: &List, random: &mut Random) -> Result<String, std::fmt::Error> {
    let mut text = String::new();
    let addresses = random.addresses(list);
    let step = 1 + addresses.len() / 2_000;
    let others: Vec<[u32; 4]> = (0..100).map(|_| random.address()).collect();
    for address in addresses.into_iter().step_by(step).chain(others) {
        for word in address {
            write!(text, "{word:08X}")?;
        }
        match look(list, address) {
            Some(zone) => writeln!(text, " {zone}")?,
            None => writeln!(text, " -")?,
        }
    }
    Ok(text)
}
