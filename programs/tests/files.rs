//! No program loses a file: outputs that are inputs, links, devices, modes and names. (Runs that were killed or
//! fail stand in `runs.rs`.)

mod common;
use common::list::{folder, made, map, LIST, ZONEMAP};
use common::{ran, Folder, Ran};
use std::ffi::OsStr;
use std::fs::{self, Permissions};
use std::os::unix::ffi::OsStrExt;
use std::os::unix::fs::{symlink, FileTypeExt, PermissionsExt};
use std::os::unix::net::UnixListener;

const DRAW: &str = env!("CARGO_BIN_EXE_draw");
const IMAGE_CHECK: &str = env!("CARGO_BIN_EXE_image_check");
const RANGEFINDER: &str = env!("CARGO_BIN_EXE_rangefinder");

fn draw(folder: &Folder, map: &str, out: &str) -> Ran {
    folder.run(DRAW, &[map, "-1.0", "-1.0", "1.0", "1.0", "1", "1", out])
}

#[test]
fn an_output_that_is_the_input() {
    let folder = folder("input");
    symlink("list.txt", folder.path("link.txt")).unwrap();
    fs::hard_link(folder.path("list.txt"), folder.path("hard.txt")).unwrap();
    fs::create_dir(folder.path("sub")).unwrap();
    for out in ["list.txt", "./list.txt", "sub/../list.txt", "link.txt", "hard.txt"] {
        let err = |name: &str| format!("{out}: cannot be written: it is the input, {name}\n");
        for list in ["list.txt", "link.txt", "hard.txt"] {
            assert_eq!(folder.run(ZONEMAP, &[list, out]), ran(2, "", &err(list)));
        }
        let from_input = folder.shell(&format!("'{ZONEMAP}' - {out} < list.txt"));
        assert_eq!(from_input, ran(2, "", &err("standard input")));
    }
    assert_eq!(folder.read("list.txt"), LIST.as_bytes());
    assert_eq!(folder.names(), ["hard.txt", "link.txt", "list.txt", "sub"]);
}

#[test]
fn a_picture_onto_its_map() {
    let folder = folder("picture");
    folder.map("map.png", LIST, "0");
    let map = folder.read("map.png");
    symlink("map.png", folder.path("link.png")).unwrap();
    fs::hard_link(folder.path("map.png"), folder.path("hard.ppm")).unwrap();
    for out in ["map.png", "./map.png", "link.png", "hard.ppm"] {
        let err = format!("{out}: cannot be written: it is the input, map.png\n");
        assert_eq!(draw(&folder, "map.png", out), ran(2, "", &err));
    }
    assert_eq!(folder.read("map.png"), map);
    assert_eq!(folder.names(), ["hard.ppm", "link.png", "list.txt", "map.png", "zones.txt"]);
}

#[test]
fn a_link_stays_and_its_file_is_replaced() {
    let folder = folder("links");
    let map = map(&folder);
    fs::create_dir(folder.path("sub")).unwrap();
    folder.write("sub/real.mmdb", "an older map");
    symlink("sub/real.mmdb", folder.path("link.mmdb")).unwrap();
    symlink("sub/new.mmdb", folder.path("dangling.mmdb")).unwrap();
    symlink("dangling.mmdb", folder.path("twice.mmdb")).unwrap();
    symlink("round.mmdb", folder.path("round.mmdb")).unwrap();
    symlink("new/", folder.path("slash.mmdb")).unwrap();
    for (out, real) in [("link.mmdb", "sub/real.mmdb"), ("twice.mmdb", "sub/new.mmdb")] {
        assert_eq!(folder.run(ZONEMAP, &["list.txt", out]), made(out));
        assert!(fs::symlink_metadata(folder.path(out)).unwrap().file_type().is_symlink());
        assert!(fs::symlink_metadata(folder.path(real)).unwrap().is_file());
        assert_eq!(folder.read(real), map);
    }
    let err = "round.mmdb: cannot be written: Too many levels of symbolic links (os error 40)\n";
    assert_eq!(folder.run(ZONEMAP, &["list.txt", "round.mmdb"]), ran(2, "", err));
    let err = "slash.mmdb: cannot be written: it is no name of a file\n";
    assert_eq!(folder.run(ZONEMAP, &["list.txt", "slash.mmdb"]), ran(2, "", err));
    let names = ["dangling.mmdb", "link.mmdb", "list.txt", "round.mmdb", "slash.mmdb", "sub", "twice.mmdb"];
    assert_eq!(folder.names(), names);
    assert_eq!(fs::read_dir(folder.path("sub")).unwrap().count(), 2);
}

/// A socket stands for all that is neither a file, a folder, a character device nor a pipe.
#[test]
fn a_socket_is_refused() {
    let folder = folder("socket");
    // the name of a socket must be short
    let short = std::env::temp_dir().join(format!("nalfipode-{}", std::process::id()));
    let _socket = UnixListener::bind(&short).unwrap();
    symlink(&short, folder.path("socket")).unwrap();
    let refused = folder.run(ZONEMAP, &["list.txt", "socket"]);
    fs::remove_file(&short).unwrap();
    let err = "socket: cannot be written: it is no file, no character device and no pipe\n";
    assert_eq!(refused, ran(2, "", err));
}

#[test]
fn a_folder_is_refused() {
    let folder = folder("folder");
    let err = ".: cannot be read: Is a directory (os error 21)\n";
    assert_eq!(folder.run(ZONEMAP, &[".", "out.mmdb"]), ran(2, "", err));
    assert_eq!(folder.run(IMAGE_CHECK, &["."]), ran(2, "", err));
    assert_eq!(draw(&folder, ".", "out.png"), ran(2, "", err));
    fs::create_dir(folder.path("taken.png")).unwrap();
    let err = "taken.png: cannot be written: it is a folder\n";
    assert_eq!(folder.run(ZONEMAP, &["list.txt", "taken.png"]), ran(2, "", err));
    folder.map("map.mmdb", LIST, "0");
    assert_eq!(draw(&folder, "map.mmdb", "taken.png"), ran(2, "", err));
    assert_eq!(folder.names(), ["list.txt", "map.mmdb", "taken.png", "zones.txt"]);
}

/// A link of this folder to a device, so that code which replaces what it should write to replaces the link.
fn device(folder: &Folder, name: &str) {
    symlink(format!("/dev/{name}"), folder.path(name)).unwrap();
}

#[test]
fn a_device_or_a_pipe_is_written_to() {
    let folder = folder("devices");
    let map = map(&folder);
    device(&folder, "null");
    assert_eq!(folder.run(ZONEMAP, &["list.txt", "null"]), made("null"));
    assert!(fs::symlink_metadata(folder.path("null")).unwrap().file_type().is_symlink());
    assert!(fs::metadata(folder.path("null")).unwrap().file_type().is_char_device());
    device(&folder, "full");
    let err = "full: cannot be written: No space left on device (os error 28)\n";
    assert_eq!(folder.run(ZONEMAP, &["list.txt", "full"]), ran(2, "", err));
    let line = format!("mkfifo pipe && {{ cat pipe > got & '{ZONEMAP}' list.txt pipe && wait; }}");
    assert_eq!(folder.shell(&line), made("pipe"));
    assert!(fs::symlink_metadata(folder.path("pipe")).unwrap().file_type().is_fifo());
    assert_eq!(folder.read("got"), map);
    assert_eq!(folder.names(), ["full", "got", "list.txt", "null", "pipe"]);
}

/// The bytes alone go to standard output, whatever that is; the line about them goes to standard error.
#[test]
fn standard_output_as_the_output() {
    let folder = folder("standard");
    let map = map(&folder);
    device(&folder, "stdout");
    let line = |out: &str| ran(0, "", &format!("{out}: 1 prefix, 1 zone, 179 bytes, epoch 0\n"));
    let run = |rest: &str| folder.shell(&format!("'{ZONEMAP}' list.txt {rest}"));
    assert_eq!(run("stdout > out.mmdb"), line("stdout"));
    assert_eq!(folder.read("out.mmdb"), map);
    assert_eq!(run("stdout | cat > out.mmdb"), line("stdout"));
    assert_eq!(folder.read("out.mmdb"), map);
    assert_eq!(run("out.mmdb > out.mmdb"), line("out.mmdb"));
    assert_eq!(folder.read("out.mmdb"), map);
    let err = "out.mmdb: cannot be written: it is standard output, and not empty\n";
    assert_eq!(run("out.mmdb >> out.mmdb"), ran(2, "", err));
    assert_eq!(folder.read("out.mmdb"), map);
    let closed = ran(2, "", "standard output: it is closed\n");
    assert_eq!(run("stdout >&-"), closed);
    let err = "stdout: cannot be written: No space left on device (os error 28)\n";
    assert_eq!(run("stdout > /dev/full"), ran(2, "", err));
    assert!(fs::symlink_metadata(folder.path("stdout")).unwrap().file_type().is_symlink());
    assert_eq!(folder.names(), ["list.txt", "out.mmdb", "stdout"]);
}

#[test]
fn an_older_file_keeps_its_mode() {
    let folder = folder("mode");
    let mode = |name: &str| fs::metadata(folder.path(name)).unwrap().permissions().mode() & 0o7777;
    for wanted in [0o600, 0o640, 0o444, 0o666, 0o755] {
        folder.write("out.mmdb", "an older map");
        fs::set_permissions(folder.path("out.mmdb"), Permissions::from_mode(wanted)).unwrap();
        assert_eq!(folder.run(ZONEMAP, &["list.txt", "out.mmdb"]), made("out.mmdb"));
        assert_eq!(mode("out.mmdb"), wanted);
        fs::remove_file(folder.path("out.mmdb")).unwrap();
    }
    let line = format!("umask 027 && '{ZONEMAP}' list.txt new.mmdb");
    assert_eq!((folder.shell(&line), mode("new.mmdb")), (made("new.mmdb"), 0o640));
}

#[test]
fn names_that_are_not_utf_8() {
    let folder = folder("bytes");
    let name = |bytes: &'static [u8]| OsStr::from_bytes(bytes);
    fs::rename(folder.path("list.txt"), folder.path(name(b"l\xEFst.txt"))).unwrap();
    let made = folder.run_on(ZONEMAP, &[name(b"l\xEFst.txt"), name(b"m\xE4p.mmdb")], b"");
    assert_eq!(made, ran(0, "m\u{FFFD}p.mmdb: 1 prefix, 1 zone, 179 bytes, epoch 0\n", ""));
    let checked = folder.run_on(IMAGE_CHECK, &[name(b"m\xE4p.mmdb")], b"");
    assert_eq!(checked, ran(0, "yes, 1 node, 1 entry, epoch 0\n", ""));
    folder.write(name(b"f\xFFxes"), "0.0 0.0\n1.0\n");
    let answered = folder.run_on(RANGEFINDER, &[name(b"m\xE4p.mmdb"), name(b"f\xFFxes")], b"");
    let err = "f\u{FFFD}xes:2: 1 field where longitude and latitude are wanted\n";
    assert_eq!(answered, ran(1, "C000000000000000 -\n", err));
    let frame = ["-1.0", "-1.0", "1.0", "1.0", "1", "1"].map(OsStr::new);
    let words = [&[name(b"m\xE4p.mmdb")], &frame[..], &[name(b"\xFF.ppm")]].concat();
    assert_eq!(folder.run_on(DRAW, &words, b""), ran(0, "no data: 1 pixel, #C9D8E0\n", ""));
    assert!(folder.path(name(b"\xFF.ppm")).exists());
    let words = [&[name(b"m\xE4p.mmdb"), name(b"\xFF")], &frame[1..], &[name(b"\xFF.ppm")]].concat();
    let err = "longitude \"\u{FFFD}\" is not a number\n";
    assert_eq!(folder.run_on(DRAW, &words, b""), ran(2, "", err));
    let words = [name(b"l\xEFst.txt"), name(b"out.mmdb"), name(b"1\xFF")];
    let err = "epoch \"1\u{FFFD}\" is not a whole number from 0 to 18446744073709551615\n";
    assert_eq!(folder.run_on(ZONEMAP, &words, b""), ran(2, "", err));
    let missing = folder.run_on(IMAGE_CHECK, &[name(b"\xFE")], b"");
    assert_eq!(missing, ran(2, "", &format!("\u{FFFD}: cannot be read: {}\n", common::NO_SUCH_FILE)));
}

#[test]
fn names_as_long_as_a_name_may_be() {
    let folder = folder("long");
    let longest = "n".repeat(250) + ".mmdb";
    assert_eq!(folder.run(ZONEMAP, &["list.txt", &longest]), made(&longest));
    assert_eq!(folder.run(ZONEMAP, &["list.txt", &longest]), made(&longest));
    let longer = "n".repeat(251) + ".mmdb";
    let err = format!("{longer}: cannot be written: File name too long (os error 36)\n");
    assert_eq!(folder.run(ZONEMAP, &["list.txt", &longer]), ran(2, "", &err));
    assert_eq!(folder.names(), ["list.txt".to_string(), longest]);
}
