//! Everything that `image_check` prints.

mod common;
use common::{ran, Folder, Ran, NO_SUCH_FILE};

const PROGRAM: &str = env!("CARGO_BIN_EXE_image_check");

#[test]
fn yes() {
    let folder = Folder::new("image_check_yes");
    for (zones, epoch, answer) in [
        ("", "0", "yes, 1 node, 0 entries, epoch 0\n"),
        ("0/1 5", "0", "yes, 1 node, 1 entry, epoch 0\n"),
        ("0/2 10\n4/2 20\n6/4 30", "256", "yes, 4 nodes, 3 entries, epoch 256\n"),
        // a hidden number has no entry
        ("/0 7\n0/1 5\n8/1 6", "1", "yes, 1 node, 2 entries, epoch 1\n"),
        (
            "00000000000000000000000000000000/128 0",
            "18446744073709551615",
            "yes, 128 nodes, 1 entry, epoch 18446744073709551615\n",
        ),
    ] {
        folder.map("map.mmdb", zones, epoch);
        assert_eq!(folder.run(PROGRAM, &["map.mmdb"]), ran(0, answer, ""));
        assert_eq!(folder.run_with(PROGRAM, &["-"], &folder.read("map.mmdb")), ran(0, answer, ""));
    }
}

#[test]
fn no() {
    let folder = Folder::new("image_check_no");
    folder.map("map.mmdb", "0/2 10\n4/2 20\n6/4 30", "256");
    let good = folder.read("map.mmdb");
    for place in 0..good.len() - 2 {
        let mut bytes = good.clone();
        bytes[place] ^= 0x80;
        folder.write("turned.mmdb", bytes);
        // a zone number with its highest bit turned may still ascend: 30 to 158
        let other = place == 6 * 4 + 16 + 5;
        let answer =
            if other { ran(0, "yes, 4 nodes, 3 entries, epoch 256\n", "") } else { ran(1, "no\n", "") };
        assert_eq!(folder.run(PROGRAM, &["turned.mmdb"]), answer, "byte {place}");
    }
    for bytes in [&b""[..], &good[1..], &good[..good.len() - 1], b"some text"] {
        folder.write("other.mmdb", bytes);
        assert_eq!(folder.run(PROGRAM, &["other.mmdb"]), ran(1, "no\n", ""));
    }
}

#[test]
fn files_and_usage() {
    let folder = Folder::new("image_check_usage");
    let Ran { status, out: usage, err } = folder.run(PROGRAM, &["--help"]);
    assert_eq!((status, &*err), (0, ""));
    assert!(usage.starts_with("usage: image_check FILE\n"));
    assert_eq!(folder.run(PROGRAM, &[]), ran(2, "", &usage));
    let err = format!("none.mmdb: cannot be read: {NO_SUCH_FILE}\n");
    assert_eq!(folder.run(PROGRAM, &["none.mmdb"]), ran(2, "", &err));
}
