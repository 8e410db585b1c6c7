//! Strings of 255 bytes and more, as rootaudit and rootkeys print them.

use kit::gen::files::{one_root_plan, wide_root_plan, Plan};
use kit::gen::strings::counted;
use kit::harness::command::{line, printed, rootaudit, store, PASSED, REFUSED, ROOTKEYS};
use std::path::Path;
use std::process::Command;

/// A form of one.root with long strings: the name in the head's key, its name and title, and all three of the object.
fn long(mut plan: Plan) -> Vec<u8> {
    let [head, object] = [0, 1];
    plan.items[head].key.strings[1] = vec![b'f'; 255];
    plan.items[head].names = [counted(&[b'g'; 257]), counted(&[b'h'; 1000])].concat();
    plan.items[object].key.strings = [vec![b'C'; 255], vec![b'n'; 256], vec![b't'; 300]];
    plan.build().bytes
}

/// Its pieces: place, size, part, owner, and class and name of a record, where one letter may stand for a
/// long string.
type Piece = (usize, usize, &'static str, usize, Option<[&'static str; 2]>);
const NARROW: [Piece; 5] = [
    (100, 1590, "head", 0, Some(["TFile", "f"])),
    (1690, 862, "listed", 100, Some(["C", "n"])),
    (2552, 891, "keys", 100, Some(["TFile", "a"])),
    (3443, 12, "gap", 0, None),
    (3455, 55, "free", 0, Some(["TFile", "a"])),
];
const WIDE: [Piece; 5] = [
    (100, 1610, "head", 0, Some(["TFile", "f"])),
    (1710, 870, "listed", 100, Some(["C", "n"])),
    (2580, 907, "keys", 100, Some(["TFile", "a"])),
    (3487, 12, "gap", 0, None),
    (3499, 79, "free", 0, Some(["TFile", "a"])),
];

/// Class and name in full.
fn whole(string: &str) -> String {
    match string {
        "f" | "C" => string.repeat(255),
        "n" => string.repeat(256),
        short => short.into(),
    }
}

/// The lines of `rootaudit --rows`, and those of rootkeys.
fn lines(pieces: &[Piece]) -> [String; 2] {
    let mut lines = [String::new(), String::new()];
    for (place, size, part, owner, key) in pieces {
        let kind = if key.is_some() { "record" } else { "gap" };
        let [class, name] = key.unwrap_or_default().map(whole);
        let [rows, keys] = if key.is_some() {
            [format!("\t{class}\t{name};1"), format!("\t{class}\t{name};1\t2024-03-15 12:30:45")]
        } else {
            [String::new(), String::new()]
        };
        lines[0] += &format!("{place} {size} {part} {owner}{rows}\n");
        lines[1] += &format!("{place}\t{size}\t{kind}{keys}\n");
    }
    lines
}

fn rootkeys(path: &Path) -> (i32, String) {
    let (status, out, _) = printed(Command::new(ROOTKEYS).arg(path).output().unwrap());
    (status, out)
}

#[test]
fn are_printed_in_full() {
    for (name, plan, pieces) in [("long.root", one_root_plan(), NARROW), ("long_wide.root", wide_root_plan(), WIDE)] {
        let path = store(name, &long(plan));
        let [rows, keys] = lines(&pieces);
        let passed = line(&path, "passed 5");
        assert_eq!(rootaudit(&[&path]), (PASSED, passed.clone(), String::new()));
        assert_eq!(rootaudit(&["--rows", path.to_str().unwrap()]), (PASSED, passed + &rows, String::new()));
        assert_eq!(rootkeys(&path), (0, keys + &line(&path, "no verdict: 5 pieces, to its end")));
    }
}

/// The class of the object in five bytes of length that say 254.
#[test]
fn are_refused_in_another_form() {
    let mut file = long(one_root_plan());
    let length = 1690 + 26;
    assert_eq!(file[length..length + 5], [255, 0, 0, 0, 255]);
    file[length + 4] = 254;
    let path = store("long_form_of_254.root", &file);
    let (status, out, _) = rootaudit(&[&path]);
    assert!(out.starts_with(&format!("{}: refused 6 at 1690: ", path.display())), "{out}");
    assert_eq!(status, REFUSED);
    let [_, keys] = lines(&NARROW[..1]);
    assert_eq!(rootkeys(&path), (1, keys + &line(&path, "no verdict: 1 pieces, then refused 6 at 1690")));
}
