//! What every program says of options, and of its version.

mod common;
use common::{ran, Folder};

const PROGRAMS: [(&str, &str); 5] = [
    ("draw", env!("CARGO_BIN_EXE_draw")),
    ("image_check", env!("CARGO_BIN_EXE_image_check")),
    ("links", env!("CARGO_BIN_EXE_links")),
    ("rangefinder", env!("CARGO_BIN_EXE_rangefinder")),
    ("zonemap", env!("CARGO_BIN_EXE_zonemap")),
];

#[test]
fn version() {
    let folder = Folder::new("options_version");
    for (name, program) in PROGRAMS {
        let version = ran(0, &format!("{name} {}\n", env!("CARGO_PKG_VERSION")), "");
        assert_eq!(folder.run(program, &["--version"]), version);
        assert_eq!(folder.run(program, &["-V"]), version);
        assert_eq!(folder.run(program, &["a", "--version", "b"]), version);
    }
    assert!(folder.names().is_empty());
}

#[test]
fn help() {
    let folder = Folder::new("options_help");
    for (name, program) in PROGRAMS {
        let help = folder.run(program, &["--help"]);
        assert_eq!((help.status, &*help.err), (0, ""));
        assert!(help.out.starts_with(&format!("usage: {name}")) && help.out.contains("\nExit status: 0"));
        assert_eq!(folder.run(program, &["a", "-h"]), help);
        let wrong = folder.run(program, &["a", "b", "c", "d", "e", "f", "g", "h", "i"]);
        assert_eq!(wrong, ran(2, "", &help.out));
    }
}

/// The headings of docs/PROGRAMS.md are the usages.
#[test]
fn usages_in_the_documents() {
    let document = include_str!("../../docs/PROGRAMS.md");
    let folder = Folder::new("options_documents");
    for (_, program) in PROGRAMS {
        let help = folder.run(program, &["--help"]).out;
        let usage = help.lines().next().and_then(|line| line.strip_prefix("usage: ")).unwrap();
        assert!(document.contains(&format!("\n### {usage}\n")), "{usage}");
    }
}

#[test]
fn unknown_options_are_no_files() {
    let folder = Folder::new("options_unknown");
    folder.write("zones.txt", "0/1 5\n");
    for (name, program) in PROGRAMS {
        for option in ["--none", "-x", "--versions", "--help=1", "-5"] {
            let err = format!("unknown option {option}; {name} --help tells the usage\n");
            assert_eq!(folder.run(program, &[option]), ran(2, "", &err));
            assert_eq!(folder.run(program, &[option, "zones.txt"]), ran(2, "", &err));
        }
    }
    let zonemap = env!("CARGO_BIN_EXE_zonemap");
    let err = "unknown option -out.mmdb; zonemap --help tells the usage\n";
    assert_eq!(folder.run(zonemap, &["zones.txt", "-out.mmdb"]), ran(2, "", err));
    assert_eq!(folder.names(), ["zones.txt"]);
}

#[test]
fn after_two_strokes_every_word_is_a_name() {
    let folder = Folder::new("options_ended");
    folder.write("--empty", "0/1 5\n");
    let made = folder.run(env!("CARGO_BIN_EXE_zonemap"), &["--", "--empty", "-out.mmdb"]);
    assert_eq!(made, ran(0, "-out.mmdb: 1 prefix, 1 zone, 179 bytes, epoch 0\n", ""));
    assert_eq!(folder.names(), ["--empty", "-out.mmdb"]);
    let checked = folder.run(env!("CARGO_BIN_EXE_image_check"), &["--", "-out.mmdb"]);
    assert_eq!(checked, ran(0, "yes, 1 node, 1 entry, epoch 0\n", ""));
}
