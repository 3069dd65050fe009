//! A list of one prefix, and what `zonemap` makes of it.

use super::{ran, Folder, Ran};
use std::fs;

pub const ZONEMAP: &str = env!("CARGO_BIN_EXE_zonemap");

pub const LIST: &str = "0/1 5\n";

pub fn folder(name: &str) -> Folder {
    let folder = Folder::new(&format!("files_{name}"));
    folder.write("list.txt", LIST);
    folder
}

/// The bytes of the list's map.
pub fn map(folder: &Folder) -> Vec<u8> {
    assert_eq!(folder.run(ZONEMAP, &["list.txt", "map.mmdb"]).status, 0);
    let bytes = folder.read("map.mmdb");
    fs::remove_file(folder.path("map.mmdb")).unwrap();
    bytes
}

pub fn made(out: &str) -> Ran {
    ran(0, &format!("{out}: 1 prefix, 1 zone, 179 bytes, epoch 0\n"), "")
}
