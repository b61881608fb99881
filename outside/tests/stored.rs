//! A folder of stored orders: the shell line of README.md, run as a new user would, in both shells.

mod common;

use std::fs;
use std::path::{Path, PathBuf};
use std::process::Command;

use common::orders::{converted, decide, OLD};

/// A folder of stored orders, one line a file.
const STORED: [(&str, &[u8]); 14] = [
    ("filled", b"1042;7;3;1;4;3;1\n"),
    ("empty", b"1043;7;3;1;4;3;\n"),
    ("-dash", b"1044;7;3;4096;21;4096;\n"),
    ("new\nline", b"1045;7;3;2;9;5;\n"),
    ("end", b"1051;7;3;2;9;5;\n"),
    ("end\n", b"1052;7;3;2;9;5;\n"),
    ("back\\slash *", b"1053;7;3;2;9;5;0\n"),
    ("above", b"1046;7;3;1;1;3;\n"),
    ("no line end", b"1047;7;3;1;4;3;"),
    ("carriage return", b"1048;7;3;1;4;3;\r\n"),
    ("two lines", b"1049;7;3;1;4;3;\n1050;7;3;1;4;3;\n"),
    ("nothing", b""),
    ("nul", b"1;2\x003;4\n"),
    ("long", &[b'1'; 100_000]),
];

/// The folders of the shell line of README.md.
const FOLDERS: [&str; 4] = ["stored", "converted", "refused", "reasons"];

/// The program in that line.
const PROGRAM: &str = "target/bin/convert";

/// That line in a shell, with something before and after it, in a folder with a new folder `stored` of the orders above.
fn shell_line(shell: &str, before: &str, after: &str, office: &Path) -> Command {
    let root = PathBuf::from(env!("CARGO_MANIFEST_DIR")).join("..").canonicalize().expect("the repository");
    let readme = fs::read_to_string(root.join("README.md")).expect("README.md");
    let line = readme.lines().find(|line| line.contains("mkdir converted refused reasons")).expect("the line");
    let _ = fs::remove_dir_all(office);
    for folder in ["stored", "target/bin"] {
        fs::create_dir_all(office.join(folder)).expect("a folder");
    }
    // No symbolic link: `rt ci` goes through all folders of the checkout, these too, and refuses one.
    let (made, here) = (root.join(PROGRAM), office.join(PROGRAM));
    let given = fs::hard_link(&made, &here).or_else(|_| fs::copy(&made, &here).map(drop));
    given.expect("the program, which `tools/build convert` makes");
    for (name, bytes) in STORED {
        fs::write(office.join("stored").join(name), bytes).expect("a stored order");
    }
    let mut command = Command::new(shell);
    command.args(["-c", &format!("{before}{line}{after}")]).current_dir(office);
    command
}

/// What a folder has of an order, in each of the four folders.
fn kept(office: &Path, name: &str) -> [Option<Vec<u8>>; 4] {
    FOLDERS.map(|folder| fs::read(office.join(folder).join(name)).ok())
}

/// As a new user would run it: nothing is lost, and what was refused is kept apart with its refusal; the second run changes nothing.
#[test]
fn the_line_of_the_readme() {
    let office = PathBuf::from(env!("CARGO_TARGET_TMPDIR")).join("office");
    for shell in ["sh", "bash"] {
        let mut line = shell_line(shell, "", "", &office);
        for ends_well in [true, false] {
            assert_eq!(line.output().expect("a shell").status.success(), ends_well);
            for (name, bytes) in STORED {
                let [given, output] = [Some(bytes.to_vec()), Some(converted(bytes))];
                let order = decide(bytes, OLD).is_ok();
                let due = if order { [given, output, None, None] } else { [given.clone(), None, given, output] };
                assert_eq!(kept(&office, name), due, "{name:?}");
            }
            let [all, orders, refused, reasons] =
                FOLDERS.map(|folder| fs::read_dir(office.join(folder)).expect("a folder").count());
            assert_eq!((all, orders + refused, reasons), (STORED.len(), STORED.len(), refused));
        }
    }
}

/// What can't be read or written stops it, and it says so, also where another command waits for it to end well; `stored` is as it was.
#[test]
fn the_line_of_the_readme_stops() {
    let office = PathBuf::from(env!("CARGO_TARGET_TMPDIR")).join("stopped");
    let full = "trap '' XFSZ; ulimit -f 0; ";
    let faults: [(&str, fn(&Path)); 5] = [
        (full, |_| ()),
        ("", |office| fs::create_dir(office.join("stored/0")).expect("a folder among the orders")),
        ("", |office| fs::create_dir(office.join("reasons")).expect("a folder of an earlier run")),
        ("", |office| fs::remove_file(office.join(PROGRAM)).expect("no program")),
        ("", |office| fs::rename(office.join("stored"), office.join("elsewhere")).expect("no orders")),
    ];
    for (before, fault) in faults {
        for (shell, after) in [("sh", ""), ("sh", " && true"), ("bash", ""), ("bash", " && true")] {
            let mut line = shell_line(shell, before, after, &office);
            fault(&office);
            let output = line.output().expect("a shell");
            assert!(!output.status.success() && !output.stderr.is_empty(), "{output:?}");
            let stored = if office.join("stored").exists() { "stored" } else { "elsewhere" };
            for (name, bytes) in STORED {
                assert_eq!(fs::read(office.join(stored).join(name)).ok().as_deref(), Some(bytes));
            }
        }
    }
}
