//! Everything that `zonemap` prints and writes.

mod common;
use common::{ran, Folder, Ran, NO_SUCH_FILE};

const PROGRAM: &str = env!("CARGO_BIN_EXE_zonemap");

#[test]
fn the_papers_example() {
    let folder = Folder::new("zonemap_example");
    folder.write("zones.txt", "# one prefix, bit 0\n0/1 5\n");
    let made = folder.run(PROGRAM, &["zones.txt", "out.mmdb"]);
    assert_eq!(made, ran(0, "out.mmdb: 1 prefix, 1 zone, 179 bytes, epoch 0\n", ""));
    let expected = [
        b"\x00\x00\x11\x00\x00\x01\0\0\0\0\0\0\0\0\0\0\0\0\0\0\0\0\xC1\x05\xAB\xCD\xEFMaxMind.com".as_slice(),
        b"\xE7\x4Anode_count\xC1\x01\x4Brecord_size\xA1\x18\x4Aip_version\xA1\x06\x4Ddatabase_type",
        b"\x4CGround-Cells\x5Bbinary_format_major_version\xA1\x02\x5Bbinary_format_minor_version\xA0",
        b"\x4Bbuild_epoch\x00\x02",
    ]
    .concat();
    assert_eq!(folder.read("out.mmdb"), expected);
}

#[test]
fn a_list_of_no_zone() {
    let folder = Folder::new("zonemap_empty");
    folder.write("out.mmdb", "an older map");
    let err = "zones.txt: it has no zone, so nothing is written; --empty asks for a map of none\n";
    for zones in ["", "# a comment\n\n", "\u{FEFF}"] {
        folder.write("zones.txt", zones);
        assert_eq!(folder.run(PROGRAM, &["zones.txt", "out.mmdb"]), ran(1, "", err));
        assert_eq!(folder.read("out.mmdb"), b"an older map");
    }
    let err = err.replace("zones.txt", "standard input");
    assert_eq!(folder.run(PROGRAM, &["-", "other.mmdb"]), ran(1, "", &err));
    assert_eq!(folder.names(), ["out.mmdb", "zones.txt"]);
    let epoch = "18446744073709551615";
    let made = folder.run(PROGRAM, &["--empty", "zones.txt", "out.mmdb", epoch]);
    let out = format!("out.mmdb: 0 prefixes, 0 zones, 185 bytes, epoch {epoch}\n");
    assert_eq!(made, ran(0, &out, ""));
    assert_eq!(folder.read("out.mmdb").len(), 185);
}

#[test]
fn a_list_after_a_byte_order_mark_and_from_standard_input() {
    let folder = Folder::new("zonemap_mark");
    folder.write("zones.txt", "\u{FEFF}0/1 5\n");
    let made = ran(0, "out.mmdb: 1 prefix, 1 zone, 179 bytes, epoch 0\n", "");
    assert_eq!(folder.run(PROGRAM, &["zones.txt", "out.mmdb"]), made);
    assert_eq!(folder.run_with(PROGRAM, &["-", "out.mmdb"], b"\xEF\xBB\xBF0/1 5"), made);
    // anywhere else a mark is no blank
    folder.write("zones.txt", "0/1 5\n\u{FEFF}8/1 5\n");
    let err = "zones.txt:2: \"\u{FEFF}8\" is not a row of hex digits\n";
    assert_eq!(folder.run(PROGRAM, &["zones.txt", "out.mmdb"]), ran(1, "", err));
}

#[test]
fn twenty_faults_are_told() {
    let folder = Folder::new("zonemap_twenty");
    for (faults, end) in
        [(20, ""), (21, "zones.txt: and 1 more fault\n"), (33, "zones.txt: and 13 more faults\n")]
    {
        folder.write("zones.txt", "0/1\n".repeat(faults));
        let told: String =
            (1..=20).map(|line| format!("zones.txt:{line}: a line is: HEX/WIDTH ZONE [NAME]\n")).collect();
        assert_eq!(folder.run(PROGRAM, &["zones.txt", "out.mmdb"]), ran(1, "", &(told + end)));
    }
    assert_eq!(folder.names(), ["zones.txt"]);
}

#[test]
fn an_older_map_is_replaced() {
    let folder = Folder::new("zonemap_replaced");
    folder.write("out.mmdb", "an older map");
    folder.write("zones.txt", "8000/1 5 half\ncell 90.0 45.0 64 4294967295\n");
    let made = folder.run(PROGRAM, &["zones.txt", "out.mmdb", "7"]);
    assert_eq!(made, ran(0, "out.mmdb: 2 prefixes, 2 zones, 563 bytes, epoch 7\n", ""));
    assert_eq!(folder.names(), ["out.mmdb", "zones.txt"]);
    assert_eq!(folder.read("out.mmdb").len(), 563);
}

#[test]
fn faults_of_a_list() {
    let folder = Folder::new("zonemap_faults");
    folder.write("out.mmdb", "an older map");
    let zones = "0/1 5\nC0/129 5\nC0/1 5\n\n0/1 6 # again\n00/1 7\n8/1 4294967296\n8/1\ncell 0.0 95.0 8 1\n\
                 cell 0.0 0.0 65 1\nG0/4 1\n8/1 five\n";
    folder.write("zones.txt", zones);
    let err = "zones.txt:2: width 129 is above 128\n\
               zones.txt:3: \"C0/1\" has a bit set after the first 1\n\
               zones.txt:5: 0/1 is named a second time, first in line 1\n\
               zones.txt:6: 0/1 is named a second time, first in line 1\n\
               zones.txt:7: zone 4294967296 is above 4294967295\n\
               zones.txt:8: a line is: HEX/WIDTH ZONE [NAME]\n\
               zones.txt:9: latitude 95.0 is outside -90 to 90 degrees\n\
               zones.txt:10: width 65 is above 64, the bits of a cell\n\
               zones.txt:11: \"G0\" is not a row of hex digits\n\
               zones.txt:12: zone \"five\" is not a whole number\n";
    assert_eq!(folder.run(PROGRAM, &["zones.txt", "out.mmdb"]), ran(1, "", err));
    assert_eq!(folder.read("out.mmdb"), b"an older map");
    assert_eq!(folder.names(), ["out.mmdb", "zones.txt"]);
}

/// 32,768 prefixes of 16 bits are half of a whole tree, of 65,535 nodes; one more has no room.
#[test]
fn more_than_a_table_holds() {
    let folder = Folder::new("zonemap_full");
    let zones: String = (0..32_768).map(|i| format!("{i:04X}/16 {i}\n")).collect();
    folder.write("zones.txt", &zones);
    let made = folder.run(PROGRAM, &["zones.txt", "out.mmdb"]);
    assert_eq!((made.status, &*made.err), (0, ""));
    assert!(made.out.starts_with("out.mmdb: 32768 prefixes, 32768 zones, "), "{}", made.out);
    folder.write("zones.txt", zones + "8000/16 1\n");
    let err = "zones.txt:32769: more prefixes than a table of 65535 nodes holds\n";
    assert_eq!(folder.run(PROGRAM, &["zones.txt", "other.mmdb"]), ran(1, "", err));
    assert_eq!(folder.names(), ["out.mmdb", "zones.txt"]);
}

#[test]
fn files_that_cannot_be_read_or_written() {
    let folder = Folder::new("zonemap_files");
    folder.write("zones.txt", "0/1 5\n");
    let err = format!("none.txt: cannot be read: {NO_SUCH_FILE}\n");
    assert_eq!(folder.run(PROGRAM, &["none.txt", "out.mmdb"]), ran(2, "", &err));
    let err = format!("none/out.mmdb: cannot be written: {NO_SUCH_FILE}\n");
    assert_eq!(folder.run(PROGRAM, &["zones.txt", "none/out.mmdb"]), ran(2, "", &err));
    for (out, why) in [
        ("", "it is no name of a file"),
        ("new/", "it is no name of a file"),
        ("..", "it is a folder"),
        ("zones.txt/out", "Not a directory (os error 20)"),
        ("-", "standard output is /dev/stdout"),
    ] {
        let err = format!("{out}: cannot be written: {why}\n");
        assert_eq!(folder.run(PROGRAM, &["zones.txt", out]), ran(2, "", &err));
    }
    assert_eq!(folder.names(), ["zones.txt"]);
}

#[test]
fn usage_and_epochs() {
    let folder = Folder::new("zonemap_usage");
    let Ran { status, out: usage, err } = folder.run(PROGRAM, &["--help"]);
    assert_eq!((status, &*err), (0, ""));
    assert!(usage.starts_with("usage: zonemap [--empty] ZONES.txt OUT.mmdb [EPOCH]\n"));
    assert_eq!(folder.run(PROGRAM, &["zones.txt"]), ran(2, "", &usage));
    for epoch in ["", "-1", "+1", "18446744073709551616", "now"] {
        let err = format!("epoch \"{epoch}\" is not a whole number from 0 to 18446744073709551615\n");
        assert_eq!(folder.run(PROGRAM, &["zones.txt", "out.mmdb", epoch]), ran(2, "", &err));
    }
    assert!(folder.names().is_empty());
}
