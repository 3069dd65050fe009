//! Where standard output cannot be written every program says so, and its exit status is 2.

mod common;
use common::{ran, Folder};

const FULL: (&str, &str) = ("> /dev/full", "No space left on device (os error 28)");
const CLOSED: (&str, &str) = (">&-", "it is closed");
const READ_ONLY: (&str, &str) = ("1< /dev/null", "Bad file descriptor (os error 9)");

/// A folder with a map of the globe's quarters, fixes and a list.
fn folder(name: &str) -> Folder {
    let folder = Folder::new(&format!("printing_{name}"));
    folder.map("map.mmdb", "C/2 7\n", "0");
    folder.write("fixes.txt", "0.0 0.0\n1.0\n");
    folder
}

fn commands() -> Vec<String> {
    let draw = env!("CARGO_BIN_EXE_draw");
    let image_check = env!("CARGO_BIN_EXE_image_check");
    let links = env!("CARGO_BIN_EXE_links");
    let rangefinder = env!("CARGO_BIN_EXE_rangefinder");
    let zonemap = env!("CARGO_BIN_EXE_zonemap");
    let mut commands = vec![
        format!("'{draw}' map.mmdb -1.0 -1.0 1.0 1.0 2 2 out.ppm"),
        format!("'{image_check}' map.mmdb"),
        format!("'{image_check}' zones.txt"),
        format!("'{links}'"),
        format!("'{rangefinder}' map.mmdb fixes.txt"),
        format!("'{zonemap}' zones.txt out.mmdb"),
    ];
    for program in [draw, image_check, links, rangefinder, zonemap] {
        commands.extend([format!("'{program}' --help"), format!("'{program}' --version")]);
    }
    commands
}

#[test]
fn full_closed_or_only_for_reading() {
    let folder = folder("each");
    for (redirected, why) in [FULL, CLOSED, READ_ONLY] {
        let err = format!("standard output: {why}\n");
        for command in commands() {
            assert_eq!(folder.shell(&format!("{command} {redirected}")), ran(2, "", &err), "{command}");
        }
    }
    // a file is whole before anything is printed about it
    assert_eq!(folder.read("out.mmdb"), folder.read("map.mmdb"));
    assert_eq!(folder.names(), ["fixes.txt", "map.mmdb", "out.mmdb", "out.ppm", "zones.txt"]);
}

#[test]
fn a_reader_that_goes_away() {
    let folder = folder("pipe");
    let line = format!("{{ '{}'; echo $? >&2; }} | true", env!("CARGO_BIN_EXE_links"));
    assert_eq!(folder.shell(&line), ran(0, "", "standard output: Broken pipe (os error 32)\n2\n"));
}

/// What is told of faults does not hang on standard output.
#[test]
fn faults_with_a_closed_output() {
    let folder = folder("faults");
    folder.write("zones.txt", "0/1\n");
    let line = format!("'{}' zones.txt out.mmdb >&-", env!("CARGO_BIN_EXE_zonemap"));
    assert_eq!(folder.shell(&line), ran(1, "", "zones.txt:1: a line is: HEX/WIDTH ZONE [NAME]\n"));
}

/// Where even standard error is closed the exit status tells.
#[test]
fn both_closed() {
    let folder = folder("both");
    for command in commands() {
        assert_eq!(folder.shell(&format!("{command} >&- 2>&-")), ran(2, "", ""), "{command}");
    }
}
