//! What a run that was killed, that fails, or that lives beside others leaves of an output.

mod common;
use common::list::{folder, made, map, LIST, ZONEMAP};
use common::{ran, Folder, Ran};
use std::fs;
use std::os::unix::fs::symlink;
use std::process::{Command, Stdio};

/// Runs zonemap so that the system kills it at its first byte of a file, and gives the name of what it left.
fn killed(folder: &Folder) -> String {
    let before = folder.names();
    let line = format!("ulimit -c 0; ulimit -f 0; '{ZONEMAP}' list.txt out.mmdb; exit 9");
    let Ran { status, out, .. } = folder.shell(&line);
    assert_eq!((status, &*out), (9, ""));
    let mut left = folder.names();
    left.retain(|name| !before.contains(name));
    assert_eq!(left.len(), 1, "{left:?}");
    left.remove(0)
}

#[test]
fn what_a_killed_run_left_goes_away() {
    let folder = folder("killed");
    let map = map(&folder);
    folder.write("out.mmdb", "an older map");
    killed(&folder);
    assert_eq!(folder.read("out.mmdb"), b"an older map");
    assert_eq!(folder.run(ZONEMAP, &["list.txt", "out.mmdb"]), made("out.mmdb"));
    assert_eq!(folder.read("out.mmdb"), map);
    assert_eq!(folder.names(), ["list.txt", "out.mmdb"]);
    // a run for another file does not look at it
    let part = killed(&folder);
    folder.write("other.mmdb", "an older map");
    assert_eq!(folder.run(ZONEMAP, &["list.txt", "other.mmdb"]), made("other.mmdb"));
    assert_eq!(folder.names(), [&part, "list.txt", "other.mmdb", "out.mmdb"]);
}

/// A file that may not grow stands for a full disk.
#[test]
fn what_a_failed_run_wrote_goes_away() {
    let folder = folder("failed");
    folder.write("out.mmdb", "an older map");
    let line = format!("trap '' XFSZ; ulimit -f 0; exec '{ZONEMAP}' list.txt out.mmdb");
    let err = "out.mmdb: cannot be written: File too large (os error 27)\n";
    assert_eq!(folder.shell(&line), ran(2, "", err));
    assert_eq!(folder.read("out.mmdb"), b"an older map");
    assert_eq!(folder.names(), ["list.txt", "out.mmdb"]);
}

#[test]
fn what_a_live_run_writes_stays() {
    let folder = folder("live");
    folder.write("out.mmdb", "an older map");
    let part = killed(&folder);
    folder.write(&part, "half of a map");
    let busy = ran(2, "", "out.mmdb: cannot be written: another run is writing it\n");
    let line = format!("flock '{part}' '{ZONEMAP}' list.txt out.mmdb");
    assert_eq!(folder.shell(&line), busy);
    assert_eq!(folder.read(&part), b"half of a map");
    assert_eq!(folder.read("out.mmdb"), b"an older map");
    assert_eq!(folder.run(ZONEMAP, &["list.txt", "out.mmdb"]), made("out.mmdb"));
    assert_eq!(folder.names(), ["list.txt", "out.mmdb"]);
}

#[test]
fn what_is_no_part_of_a_run_stays() {
    let folder = folder("in_the_way");
    let part = killed(&folder);
    fs::remove_file(folder.path(&part)).unwrap();
    symlink("list.txt", folder.path(&part)).unwrap();
    let err = format!("out.mmdb: cannot be written: {part} is in the way\n");
    assert_eq!(folder.run(ZONEMAP, &["list.txt", "out.mmdb"]), ran(2, "", &err));
    assert_eq!(folder.read("list.txt"), LIST.as_bytes());
    assert_eq!(folder.names(), [&part, "list.txt"]);
}

/// Many runs at once on one output: each writes all of it or is refused, and nothing is left.
#[test]
fn many_runs_at_once() {
    let folder = folder("many");
    folder.write("list.txt", (0..4_000).map(|i| format!("{i:04X}/16 {i}\n")).collect::<String>());
    let map = map(&folder);
    for _ in 0..5 {
        let run = || {
            Command::new(ZONEMAP)
                .args(["list.txt", "out.mmdb"])
                .current_dir(folder.path(""))
                .stdout(Stdio::piped())
                .stderr(Stdio::piped())
                .spawn()
        };
        let runs: Vec<_> = (0..12).map(|_| run().unwrap()).collect();
        let mut written = 0;
        for run in runs {
            let output = run.wait_with_output().unwrap();
            let err = String::from_utf8(output.stderr).unwrap();
            match output.status.code() {
                Some(0) => written += 1,
                _ => assert_eq!(err, "out.mmdb: cannot be written: another run is writing it\n"),
            }
        }
        assert!(written > 0);
        assert_eq!(folder.read("out.mmdb"), map);
        assert_eq!(folder.names(), ["list.txt", "out.mmdb"]);
    }
}
