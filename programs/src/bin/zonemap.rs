//! zonemap ZONES.txt OUT.mmdb [EPOCH]: builds a map image from a list of zones.

use programs::arguments::Program;
use programs::counted::counted;
use programs::faults::Faults;
use programs::input::Input;
use programs::library::{self, Full, Table, RECORDS};
use programs::output::Output;
use programs::run;
use programs::zones::{self, Fault, Zone};
use std::collections::BTreeSet;
use std::ffi::OsStr;
use std::process::ExitCode;

const USAGE: &str = "\
usage: zonemap [--empty] ZONES.txt OUT.mmdb [EPOCH]
Builds a map from a list of zones, one to a line, and writes it when all of it is well:
  HEX/WIDTH ZONE [NAME]            the prefix with these leading bits, as C0000000/20
  cell LON LAT WIDTH ZONE [NAME]   the first WIDTH bits of the cell of a position
What follows a # is a comment. The smallest zone around a position is the one with the longest prefix.
Where ZONES.txt is - the list is read from standard input. EPOCH is the time that the map bears, a number
from 0 (if none is given) to 18446744073709551615. With --empty a list of no zone gives a map of no data.
Exit status: 0, 1 if the list has faults (at most twenty are told, each with its line) or no zone, and then
nothing is written, 2 if a file cannot be read or written, or OUT.mmdb is the list itself.";

const EMPTY: &str = "--empty";

const PROGRAM: Program = Program { name: "zonemap", usage: USAGE, options: &[EMPTY], numbers: 2..3 };

fn main() -> ExitCode {
    run::main(&PROGRAM, |given| {
        let empty = given.options.contains(&EMPTY);
        match &given.words[..] {
            [list, out] => build(list, out, 0, empty),
            [list, out, epoch] => build(list, out, epoch_of(epoch)?, empty),
            _ => run::wrong_arguments(),
        }
    })
}

fn epoch_of(word: &OsStr) -> Result<u64, String> {
    let text = word.to_string_lossy();
    let digits = !text.is_empty() && text.bytes().all(|b| b.is_ascii_digit());
    text.parse()
        .ok()
        .filter(|_| digits)
        .ok_or_else(|| format!("epoch \"{text}\" is not a whole number from 0 to 18446744073709551615"))
}

fn build(list: &OsStr, out: &OsStr, epoch: u64, empty: bool) -> Result<u8, String> {
    let mut list = Input::open(list)?;
    let out = Output::of(out, &list)?;
    let text = list.bytes()?;
    let made = zones::read(&text)
        .and_then(|zones| table(&zones).map(|table| (zones, table)).map_err(|fault| vec![fault]));
    let (zones, mut table) = match made {
        Ok(made) => made,
        Err(found) => return Ok(told(&list.name, &found)),
    };
    if zones.is_empty() && !empty {
        run::warn(&format!(
            "{}: it has no zone, so nothing is written; {EMPTY} asks for a map of none",
            list.name
        ));
        return Ok(run::FAULTS);
    }
    let image = table.image(epoch).map_err(|refusal| format!("the image writer refuses: {refusal}"))?;
    out.write(&image, library::verify)?;
    let numbers: BTreeSet<u32> = zones.iter().map(|z| z.number).collect();
    let prefixes = counted(zones.len(), "prefix", "prefixes");
    let numbers = counted(numbers.len(), "zone", "zones");
    out.say(&format!("{}: {prefixes}, {numbers}, {} bytes, epoch {epoch}", out.name, image.len()))?;
    Ok(0)
}

/// Tells the faults of a list, and gives the exit status.
fn told(name: &str, found: &[Fault]) -> u8 {
    let mut faults = Faults::of(name);
    for (line, fault) in found {
        faults.tell(line, fault);
    }
    faults.end()
}

fn table(zones: &[Zone]) -> Result<Table, Fault> {
    let mut table = Table::fresh(RECORDS);
    for zone in zones {
        table
            .store(zone.prefix, zone.number)
            .map_err(|Full| (zone.line, format!("more prefixes than a table of {RECORDS} nodes holds")))?;
    }
    Ok(table)
}
