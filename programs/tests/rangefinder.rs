//! Everything that `rangefinder` prints.

mod common;
use common::{ran, Folder, Ran, NO_SUCH_FILE};

const PROGRAM: &str = env!("CARGO_BIN_EXE_rangefinder");

/// The north-east quarter of the globe is zone 7, a block of it at 0, 0 is zone 0.
const ZONES: &str = "C/2 7 quarter\ncell 0.0 0.0 20 0 corner\n";

fn folder(name: &str) -> Folder {
    let folder = Folder::new(&format!("rangefinder_{name}"));
    folder.map("map.mmdb", ZONES, "0");
    folder
}

#[test]
fn sample_course() {
    let folder = Folder::new("rangefinder_sample_course");
    folder.map("links.mmdb", include_str!("../../samples/links/zones.txt"), "1794700800");
    folder.write("fixes.txt", include_str!("../../samples/links/fixes.txt"));
    let expected = include_str!("../../samples/links/fixes.out");
    assert_eq!(folder.run(PROGRAM, &["links.mmdb", "fixes.txt"]), ran(0, expected, ""));
}

#[test]
fn fixes_in_each_form() {
    let fixes =
        "0.0 0.0\n# comment\n\n0,0\r\n90.0, 45.0 # in the quarter\n-900000000 450000000\n1 1\n180.0 90.0";
    let expected = "C000000000000000 0\nC000000000000000 0\nF000000000000000 7\n7000000000000000 -\n\
                    C000000000000006 0\nFFFFFFFFFFFFFFFF 7\n";
    let folder = folder("forms");
    folder.write("fixes.txt", fixes);
    assert_eq!(folder.run(PROGRAM, &["map.mmdb", "fixes.txt"]), ran(0, expected, ""));
    assert_eq!(folder.run_with(PROGRAM, &["map.mmdb"], fixes.as_bytes()), ran(0, expected, ""));
    assert_eq!(folder.run_with(PROGRAM, &["map.mmdb", "-"], fixes.as_bytes()), ran(0, expected, ""));
}

#[test]
fn no_fixes() {
    assert_eq!(folder("no_fixes").run(PROGRAM, &["map.mmdb"]), ran(0, "", ""));
}

#[test]
fn bad_lines_are_told_and_the_others_answered() {
    let fixes = b"0.0 0.0\nnorth 5.0\n181.0 0.0\n1.00000001 0.0\n0.5 1\n1.0\n\xFF\xFE\n90.0 45.0\n";
    let err = "fixes.txt:2: longitude \"north\" is not a number\n\
               fixes.txt:3: longitude 181.0 is outside -180 to 180 degrees\n\
               fixes.txt:4: longitude 1.00000001 has more than seven decimals\n\
               fixes.txt:5: 0.5 and 1: only one of the two has a decimal point\n\
               fixes.txt:6: 1 field where longitude and latitude are wanted\n\
               fixes.txt:7: not plain text (UTF-8)\n";
    let out = "C000000000000000 0\nF000000000000000 7\n";
    let folder = folder("bad_lines");
    folder.write("fixes.txt", fixes);
    assert_eq!(folder.run(PROGRAM, &["map.mmdb", "fixes.txt"]), ran(1, out, err));
    let err = err.replace("fixes.txt", "standard input");
    assert_eq!(folder.run_with(PROGRAM, &["map.mmdb"], fixes), ran(1, out, &err));
}

#[test]
fn twenty_faults_are_told() {
    let folder = folder("twenty");
    for (faults, end) in
        [(20, ""), (21, "fixes.txt: and 1 more fault\n"), (33, "fixes.txt: and 13 more faults\n")]
    {
        let bad = "1.0\n".repeat(faults);
        folder.write("fixes.txt", format!("{bad}0.0 0.0\n"));
        let told: String = (1..=20)
            .map(|line| format!("fixes.txt:{line}: 1 field where longitude and latitude are wanted\n"))
            .collect();
        let answered = folder.run(PROGRAM, &["map.mmdb", "fixes.txt"]);
        assert_eq!(answered, ran(1, "C000000000000000 0\n", &(told + end)));
    }
}

#[test]
fn a_byte_order_mark_before_the_fixes() {
    let folder = folder("mark");
    let fixes = "\u{FEFF}0.0 0.0\n";
    folder.write("fixes.txt", fixes);
    let answered = ran(0, "C000000000000000 0\n", "");
    assert_eq!(folder.run(PROGRAM, &["map.mmdb", "fixes.txt"]), answered);
    assert_eq!(folder.run_with(PROGRAM, &["map.mmdb"], fixes.as_bytes()), answered);
    let later = folder.run_with(PROGRAM, &["map.mmdb"], "0.0 0.0\n\u{FEFF}1.0 1.0\n".as_bytes());
    let err = "standard input:2: longitude \"\u{FEFF}1.0\" is not a number\n";
    assert_eq!(later, ran(1, "C000000000000000 0\n", err));
}

#[test]
fn a_map_from_standard_input() {
    let folder = folder("map_from_input");
    folder.write("fixes.txt", "0.0 0.0\n");
    let answered = folder.run_with(PROGRAM, &["-", "fixes.txt"], &folder.read("map.mmdb"));
    assert_eq!(answered, ran(0, "C000000000000000 0\n", ""));
    let err = "standard input cannot be both the map and the fixes\n";
    assert_eq!(folder.run(PROGRAM, &["-"]), ran(2, "", err));
    assert_eq!(folder.run(PROGRAM, &["-", "-"]), ran(2, "", err));
}

#[test]
fn refused_maps() {
    let folder = folder("refused_maps");
    let good = folder.read("map.mmdb");
    let refused = |name: &str| ran(2, "", &format!("{name}: not a map: the image checker refuses it\n"));
    let mut turned = good.clone();
    turned[2] ^= 1;
    for (name, bytes) in [
        ("empty.mmdb", vec![]),
        ("short.mmdb", good[..good.len() - 1].to_vec()),
        ("long.mmdb", [&good[..], b"\0"].concat()),
        ("turned.mmdb", turned),
        ("text.mmdb", b"no map at all".to_vec()),
    ] {
        folder.write(name, bytes);
        assert_eq!(folder.run_with(PROGRAM, &[name], b"0.0 0.0\n"), refused(name));
    }
}

#[test]
fn missing_files() {
    let folder = folder("missing_files");
    let missing = |name: &str| ran(2, "", &format!("{name}: cannot be read: {NO_SUCH_FILE}\n"));
    assert_eq!(folder.run(PROGRAM, &["none.mmdb"]), missing("none.mmdb"));
    assert_eq!(folder.run(PROGRAM, &["map.mmdb", "none.txt"]), missing("none.txt"));
    let is_folder = folder.run(PROGRAM, &["."]);
    assert_eq!(is_folder, ran(2, "", ".: cannot be read: Is a directory (os error 21)\n"));
    let is_folder = folder.run(PROGRAM, &["map.mmdb", "."]);
    assert_eq!(is_folder, ran(2, "", ".: cannot be read: Is a directory (os error 21)\n"));
}

#[test]
fn usage() {
    let folder = folder("usage");
    let Ran { status, out: usage, err } = folder.run(PROGRAM, &["--help"]);
    assert_eq!((status, &*err), (0, ""));
    assert!(usage.starts_with("usage: rangefinder MAP.mmdb [FIXES]\n"));
    assert_eq!(folder.run(PROGRAM, &["-h"]), ran(0, &usage, ""));
    assert_eq!(folder.run(PROGRAM, &[]), ran(2, "", &usage));
    assert_eq!(folder.run(PROGRAM, &["a", "b", "c"]), ran(2, "", &usage));
}
