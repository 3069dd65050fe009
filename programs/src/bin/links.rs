//! links: prints the sample course as a list of zones.

use programs::arguments::Program;
use programs::run;
use std::process::ExitCode;

const USAGE: &str = "\
usage: links
Prints the sample course as a list of zones that zonemap reads (samples/links/zones.txt).
Exit status: 0, 2 if it cannot be printed.";

const PROGRAM: Program = Program { name: "links", usage: USAGE, options: &[], numbers: 0..0 };

fn main() -> ExitCode {
    run::main(&PROGRAM, |given| match &given.words[..] {
        [] => {
            run::say(programs::links::list()?.trim_end())?;
            Ok(0)
        }
        _ => run::wrong_arguments(),
    })
}
