//! Names: two never print alike, and none looks like a verdict.

use kit::gen::{one_root, versioned_key, Rng};
use kit::harness::command::{folder, printed, PASSED, REFUSED, ROOTAUDIT};
use programs::rootaudit::escape::{ascii, text};
use std::collections::HashSet;
use std::ffi::OsStr;
use std::fs;
use std::os::unix::ffi::OsStrExt;
use std::process::Command;

const NAMES: [(&[u8], &str); 20] = [
    (b"run 12.root", "run 12.root"),
    (b"12:30.root", "12:30.root"),
    ("\u{540d}\u{524d} \u{e9}.root".as_bytes(), "\u{540d}\u{524d} \u{e9}.root"),
    (b"a\\n.root", "a\\\\n.root"),
    (b"a\n.root", "a\\n.root"),
    (b"a\r.root", "a\\r.root"),
    (b"a\t.root", "a\\t.root"),
    (b"a\x1b[31m.root", "a\\u{1b}[31m.root"),
    (b"a\xff.root", "a\\xff.root"),
    (b"a\\xff.root", "a\\\\xff.root"),
    (b"a\xef\xbf.root", "a\\xef\\xbf.root"),
    ("a\u{fffd}.root".as_bytes(), "a\u{fffd}.root"),
    ("a\u{202e}toor.".as_bytes(), "a\\u{202e}toor."),
    ("a\u{2028}.root".as_bytes(), "a\\u{2028}.root"),
    ("a\u{200b}.root".as_bytes(), "a\\u{200b}.root"),
    ("a\u{a0}.root".as_bytes(), "a\\u{a0}.root"),
    ("e\u{301}.root".as_bytes(), "e\\u{301}.root"),
    (b"a.root: passed 5", "a.root\\x3a passed 5"),
    (b"a.root:", "a.root\\x3a"),
    (
        b"2 files: 2 passed, 0 refused, 0 not read: all passed",
        "2 files\\x3a 2 passed, 0 refused, 0 not read\\x3a all passed",
    ),
];

/// The real command over a file of each name: its line, and README's pattern finds a pass where one is.
#[test]
fn names_of_files() {
    let folder = folder("names");
    for (name, escaped) in NAMES {
        let name = OsStr::from_bytes(name);
        for (bytes, status, words) in [(one_root(), PASSED, "passed 5"), (vec![], REFUSED, "refused 1 at 0: ")] {
            fs::write(folder.join(name), bytes).unwrap();
            let run = Command::new(ROOTAUDIT).arg("--").arg(name).current_dir(&folder).output().unwrap();
            let (found, out, errors) = printed(run);
            assert_eq!((found, errors.as_str(), out.lines().count()), (status, "", 1), "{out}");
            assert!(out.starts_with(&format!("{escaped}: {words}")), "{out}");
            assert_eq!(out.split_once(": ").unwrap().0, escaped);
            assert_eq!(is_pass(out.trim_end_matches('\n')), status == PASSED, "{out}");
        }
    }
}

/// README's pattern, `: passed [1-9][0-9]*$`.
fn is_pass(line: &str) -> bool {
    let digits = line.rsplit_once(": passed ").map_or("", |(_, digits)| digits);
    !digits.is_empty() && !digits.starts_with('0') && digits.bytes().all(|byte| byte.is_ascii_digit())
}

/// All names of one, two and three odd bytes print differently, and so do those of other characters.
#[test]
fn no_two_alike() {
    let odd = [b'a', b'n', b'\\', b'x', b'3', b':', b' ', b'\n', 0xff, 0xc3, 0xa9, b'{', b'u'];
    let mut names: Vec<Vec<u8>> = vec![vec![]];
    for _ in 0..3 {
        let longer = names.iter().flat_map(|name| odd.map(|byte| [name.as_slice(), &[byte]].concat()));
        names = longer.chain([vec![]]).collect::<HashSet<_>>().into_iter().collect();
    }
    names.extend((0..0x3000).filter_map(char::from_u32).map(|c| c.to_string().into_bytes()));
    let names: HashSet<Vec<u8>> = names.into_iter().collect();
    for escaped in [text, ascii] {
        let texts: HashSet<String> = names.iter().map(|name| escaped(name)).collect();
        assert_eq!(texts.len(), names.len());
        assert!(texts.iter().all(|text| !text.contains('\n')));
    }
    assert!(names.iter().all(|name| ascii(name).is_ascii() && !text(name).contains(": ")));
}

/// A record's name in a row cannot fake a line either.
#[test]
fn names_of_records() {
    let mut rng = Rng::new(50);
    let mut key = versioned_key(&mut rng, 4, 100, [0; 3], 7);
    key.strings = [b"A\tB".to_vec(), b"\x1b[31m\n\xff: passed 5".to_vec(), vec![]];
    key.keylen = key.sum() as u16;
    (key.nbytes, key.cycle) = (key.keylen.into(), 0xffff);
    let mut file = one_root();
    file.truncate(100);
    file.extend(key.header());
    file.extend([0; 4]);
    let len = file.len() as u32;
    file[12..16].copy_from_slice(&len.to_be_bytes());
    let path = kit::harness::command::store("names_record.root", &file);
    let (status, out, _) = kit::harness::command::rootaudit(&[OsStr::new("--rows"), path.as_os_str()]);
    let row = "no verdict: 100 49 record\tA\\tB\t\\u{1b}[31m\\n\\xff\\x3a passed 5;-1";
    assert_eq!((status, out.lines().nth(1).unwrap(), out.lines().count()), (REFUSED, row, 2));
    assert!(!out.lines().any(is_pass));
}
