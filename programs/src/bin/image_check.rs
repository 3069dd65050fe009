//! image_check FILE: is it a map, and what does it say of itself?

use programs::arguments::Program;
use programs::counted::counted;
use programs::input::Input;
use programs::library;
use programs::run;
use std::process::ExitCode;

const USAGE: &str = "\
usage: image_check FILE
Prints `yes, N nodes, K entries, epoch E` for a map that the image checker accepts, else `no`. Where FILE is -
it is standard input.
Exit status: 0 for yes, 1 for no, 2 if the file cannot be read or the answer not printed.";

const PROGRAM: Program = Program { name: "image_check", usage: USAGE, options: &[], numbers: 0..0 };

fn main() -> ExitCode {
    run::main(&PROGRAM, |given| match &given.words[..] {
        [file] => check(&Input::open(file)?.bytes()?),
        _ => run::wrong_arguments(),
    })
}

fn check(image: &[u8]) -> Result<u8, String> {
    if !library::verify(image) {
        run::say("no")?;
        return Ok(run::FAULTS);
    }
    let facts = library::facts(image).ok_or("accepted, but its counts cannot be read")?;
    let nodes = counted(facts.nodes, "node", "nodes");
    let entries = counted(facts.entries, "entry", "entries");
    run::say(&format!("yes, {nodes}, {entries}, epoch {}", facts.epoch))?;
    Ok(0)
}
