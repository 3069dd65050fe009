//! Everything that `draw` prints and writes, and the sample course's list and picture.

mod common;
use common::{ran, Folder, Ran, NO_SUCH_FILE};

const PROGRAM: &str = env!("CARGO_BIN_EXE_draw");

/// The globe's quarters: north-west no data, north-east zone 7, south-west zone 1, south-east zone 15 + 16.
const QUARTERS: &str = "C/2 7\n0/2 1\n8/2 31\n";

const GLOBE: [&str; 4] = ["-180.0", "-90.0", "180.0", "90.0"];

fn folder(name: &str) -> Folder {
    let folder = Folder::new(&format!("draw_{name}"));
    folder.map("map.mmdb", QUARTERS, "0");
    folder
}

fn arguments<'a>(
    map: &'a str,
    frame: [&'a str; 4],
    width: &'a str,
    height: &'a str,
    out: &'a str,
) -> [&'a str; 8] {
    [map, frame[0], frame[1], frame[2], frame[3], width, height, out]
}

const COUNTS: &str = "no data: 2 pixels, #C9D8E0\nzone 1: 2 pixels, #8A8F5A\nzone 7: 2 pixels, #3E7CB8\n\
                      zone 31: 2 pixels, #FFFFFF\n";

#[test]
fn four_quarters_as_ppm() {
    let folder = folder("ppm");
    let drawn = folder.run(PROGRAM, &arguments("map.mmdb", GLOBE, "4", "2", "out.ppm"));
    assert_eq!(drawn, ran(0, COUNTS, ""));
    let (sea, blue, heath, white) = ("201 216 224", "62 124 184", "138 143 90", "255 255 255");
    let expected = format!("P3\n4 2\n255\n{sea} {sea} {blue} {blue} {heath}\n{heath} {white} {white}\n");
    assert_eq!(String::from_utf8(folder.read("out.ppm")).unwrap(), expected);
    assert_eq!(folder.names(), ["map.mmdb", "out.ppm", "zones.txt"]);
}

#[test]
fn four_quarters_as_png() {
    let folder = folder("png");
    let units = ["-1800000000", "-900000000", "1800000000", "900000000"];
    let drawn = folder.run(PROGRAM, &arguments("map.mmdb", units, "4", "2", "out.png"));
    assert_eq!(drawn, ran(0, COUNTS, ""));
    let bytes = folder.read("out.png");
    let rows = [0, 0, 0, 8, 8, 0, 2, 2, 16, 16];
    assert!(bytes.windows(rows.len()).any(|w| w == rows));
}

#[test]
fn one_pixel() {
    let folder = folder("one");
    let drawn =
        folder.run(PROGRAM, &arguments("map.mmdb", ["-1.0", "-2.0", "2.0", "4.0"], "1", "1", "out.ppm"));
    assert_eq!(drawn, ran(0, "zone 7: 1 pixel, #3E7CB8\n", ""));
    let drawn =
        folder.run_with(PROGRAM, &arguments("-", GLOBE, "1", "1", "out.ppm"), &folder.read("map.mmdb"));
    assert_eq!(drawn, ran(0, "zone 7: 1 pixel, #3E7CB8\n", ""));
}

#[test]
fn sample_course() {
    let folder = Folder::new("draw_sample_course");
    let links = folder.run(env!("CARGO_BIN_EXE_links"), &[]);
    assert!(links == ran(0, include_str!("../../samples/links/zones.txt"), ""));
    folder.map("links.mmdb", &links.out, "1794700800");
    let frame = ["-2.5000000", "56.5000000", "-2.4931641", "56.5011674"];
    let drawn = folder.run(PROGRAM, &arguments("links.mmdb", frame, "840", "260", "links.png"));
    assert_eq!((drawn.status, &*drawn.err), (0, ""));
    assert_eq!(drawn.out.lines().count(), 9);
    let shipped = include_bytes!("../../docs/links.png");
    assert!(folder.read("links.png") == shipped, "docs/links.png is not what draw draws now");
}

#[test]
fn refused() {
    let folder = folder("refused");
    let frame = "WEST must be west of EAST, and SOUTH south of NORTH\n";
    let rows: [([&str; 4], &str, &str, &str, &str); 11] = [
        (["1.0", "0.0", "1.0", "1.0"], "4", "2", "out.ppm", frame),
        (["0.0", "1.0", "1.0", "0.5"], "4", "2", "out.ppm", frame),
        (["x", "0.0", "1.0", "1.0"], "4", "2", "out.ppm", "longitude \"x\" is not a number\n"),
        (["-.5", "0.0", "1.0", "1.0"], "4", "2", "out.ppm", "longitude \"-.5\" is not a number\n"),
        (["0.0", "0.0", "1.0", "90.5"], "4", "2", "out.ppm", "latitude 90.5 is outside -90 to 90 degrees\n"),
        (GLOBE, "0", "2", "out.ppm", "width \"0\" is not a whole number from 1 to 4096\n"),
        (GLOBE, "4", "4097", "out.ppm", "height \"4097\" is not a whole number from 1 to 4096\n"),
        (GLOBE, "+4", "2", "out.ppm", "width \"+4\" is not a whole number from 1 to 4096\n"),
        (GLOBE, "4", "2", "out.jpg", "out.jpg: its ending is neither .ppm nor .png\n"),
        (GLOBE, "4", "2", "out", "out: its ending is neither .ppm nor .png\n"),
        (
            GLOBE,
            "4",
            "2",
            "none/out.ppm",
            "none/out.ppm: cannot be written: No such file or directory (os error 2)\n",
        ),
    ];
    for (frame, width, height, out, err) in rows {
        let drawn = folder.run(PROGRAM, &arguments("map.mmdb", frame, width, height, out));
        assert_eq!(drawn, ran(2, "", err));
    }
    let drawn = folder.run(PROGRAM, &arguments("none.mmdb", GLOBE, "4", "2", "out.ppm"));
    assert_eq!(drawn, ran(2, "", &format!("none.mmdb: cannot be read: {NO_SUCH_FILE}\n")));
    let drawn = folder.run(PROGRAM, &arguments("zones.txt", GLOBE, "4", "2", "out.ppm"));
    assert_eq!(drawn, ran(2, "", "zones.txt: not a map: the image checker refuses it\n"));
    assert_eq!(folder.names(), ["map.mmdb", "zones.txt"]);
}

#[test]
fn usage() {
    let folder = folder("usage");
    let Ran { status, out: usage, err } = folder.run(PROGRAM, &["--help"]);
    assert_eq!((status, &*err), (0, ""));
    assert!(usage.starts_with("usage: draw MAP.mmdb WEST SOUTH EAST NORTH WIDTH HEIGHT OUT.ppm|OUT.png\n"));
    assert_eq!(folder.run(PROGRAM, &["map.mmdb"]), ran(2, "", &usage));
    let links = folder.run(env!("CARGO_BIN_EXE_links"), &["extra"]);
    assert!(links.status == 2 && links.err.starts_with("usage: links\n"));
}
