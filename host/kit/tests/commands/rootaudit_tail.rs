//! Files that are longer than END: what their first END bytes would be is told, and is never a pass.

use kit::gen::{nested, one_root, wide_root, Rng};
use kit::harness::command::{folder, line, rootaudit, rootaudit_in, shell, store, PASSED, REFUSED};
use kit::harness::json::{parse, Json};
use programs::ffi::Answer;
use programs::rootaudit::verdict::{examine, FirstEnd, Verdict};
use programs::rootaudit::words::{said, AGAIN, KEEP, LOOK, WAIT};
use programs::rootaudit::{library, Audit};
use std::cell::Cell;
use std::fs;

fn with_tail(file: &[u8], tail: usize) -> Vec<u8> {
    [file, &vec![b'x'; tail]].concat()
}

/// Fails unless the words are those of the refusal, and neither the line nor the status is that of a pass.
fn expect(name: &str, file: &[u8], words: &str) {
    let path = store(name, file);
    let words = line(&path, words);
    assert_eq!(rootaudit(&[&path]), (REFUSED, words.clone(), String::new()));
    let log = store(&format!("{name}.log"), words.as_bytes());
    let passes = shell("grep -E ': passed [1-9][0-9]*$' \"$1\"", "", &log);
    assert_eq!(passes, (1, String::new(), String::new()));
}

#[test]
fn a_whole_file_and_more() {
    for (name, file, len) in [("tail_narrow.root", one_root(), "364"), ("tail_wide.root", wide_root(), "432")] {
        for (tail, stand) in [(1, "1 byte stands"), (357, "357 bytes stand"), (5000, "5,000 bytes stand")] {
            let file = with_tail(&file, tail);
            let has = file.len().to_string();
            let has = if file.len() > 999 { has[..1].to_owned() + "," + &has[1..] } else { has };
            let words = format!(
                "refused 4 at 0: its header says {len} bytes, it has {has}: its first {len} bytes by themselves would \
                 pass, and {stand} behind them, as an append that was cut off leaves them; now: {KEEP}"
            );
            expect(name, &file, &words);
        }
    }
    for other in [AGAIN, LOOK, WAIT] {
        assert!(other.contains("copy it again"));
    }
    assert!(KEEP.contains("keep it as it is and call an analyst") && !KEEP.contains("copy"));
}

/// The first END bytes may be refused too.
#[test]
fn a_damaged_file_and_more() {
    for (at, value, refused) in [
        (297, 0, "5 at 297"),
        (330, 0, "6 at 309"),
        (127, b'X', "8 at 100"),
        (353, 53, "9 at 309"),
        (40, 7, "10 at 7"),
        (245, b'X', "12 at 218"),
        (267, 0, "13 at 257"),
    ] {
        let mut file = with_tail(&one_root(), 36);
        file[at] = value;
        let words = format!(
            "refused 4 at 0: its header says 364 bytes, it has 400: its first 364 bytes by themselves would be refused \
             with {refused}, and 36 bytes stand behind them; now: {WAIT}"
        );
        expect("tail_damaged.root", &file, &words);
    }
}

/// END at its least, below it, at the length and above it, and BEGIN elsewhere.
#[test]
fn other_bounds() {
    let words = |end: u32, begin: u8| {
        let mut file = one_root();
        file[11] = begin;
        file[12..16].copy_from_slice(&end.to_be_bytes());
        let Verdict::Refused(refused) = examine(&file, &library) else { panic!("{end}") };
        assert_eq!(refused.answer, Answer::refusal(4, 0));
        (refused.first_end, said(&Verdict::Refused(refused), &file))
    };
    for end in [100, 101, 168, 363] {
        let (first, said) = words(end, 100);
        let first = first.unwrap();
        assert_eq!(first.bytes, end.into());
        assert!(!first.would_pass() && said.contains(" would be refused with "), "{said}");
        assert!(said.ends_with(WAIT), "{said}");
    }
    assert_eq!(words(100, 100).0, Some(FirstEnd { bytes: 100, answer: Answer::refusal(8, 100) }));
    for (end, begin) in [(0, 100), (99, 100), (365, 100), (u32::MAX, 100), (100, 99), (363, 101), (363, 0)] {
        let (first, said) = words(end, begin);
        assert_eq!(first, None);
        assert!(!said.contains("its first ") && said.ends_with(WAIT), "{said}");
    }
}

/// Every length of the tail and every END leaves what it is: no pass.
#[test]
fn never_a_pass() {
    for file in [one_root(), wide_root()] {
        for tail in 1..200 {
            let verdict = examine(&with_tail(&file, tail), &library);
            let Verdict::Refused(refused) = &verdict else { panic!("{verdict:?}") };
            assert_eq!((refused.answer, verdict.status()), (Answer::refusal(4, 0), 1));
            assert_eq!(refused.first_end.map(|first| first.answer), Some(Answer::success(5)));
        }
        // The same file twice.
        assert!(matches!(examine(&file.repeat(2), &library), Verdict::Refused(_)));
    }
}

/// More pieces than there are rows at first.
#[test]
fn many_pieces() {
    let file = with_tail(&nested::plan(&mut Rng::new(1), 20_000, 0).build().bytes, 10);
    let Verdict::Refused(refused) = examine(&file, &library) else { panic!("no refusal") };
    assert_eq!(refused.first_end.unwrap().answer, Answer::success(20_000));
}

/// Where the first END bytes could not be audited, nothing is said of them.
#[test]
fn an_audit_that_does_not_end() {
    let file = with_tail(&one_root(), 36);
    let answers = [(7, 0), (7, 1025), (7, u64::MAX), (15, 0), (0, 0), (0, 1025), (u64::MAX, 0)];
    for (number, count) in answers {
        let calls = Cell::new(0);
        let audit: Audit = &|bytes, _| {
            calls.set(calls.get() + 1);
            match bytes.len() {
                400 => Answer::refusal(4, 0),
                364 => Answer { number, place: 0, count },
                len => panic!("{len}"),
            }
        };
        let verdict = examine(&file, audit);
        assert_eq!(verdict, Verdict::Refused(Answer::refusal(4, 0).into()), "{number} {count}");
        let words = format!("refused 4 at 0: its header says 364 bytes, it has 400; now: {KEEP}");
        assert_eq!((said(&verdict, &file), calls.get()), (words, 2));
    }
}

/// In JSON the verdict is a refusal, and no number is that of a pass.
#[test]
fn json() {
    let folder = folder("tail_json");
    let mut bad = with_tail(&one_root(), 36);
    fs::write(folder.join("a.root"), &bad).unwrap();
    bad[267] = 0;
    fs::write(folder.join("b.root"), &bad).unwrap();
    fs::write(folder.join("c.root"), &one_root()[..300]).unwrap();
    let (status, out, _) = rootaudit_in(&folder, &["--json", "--", "a.root", "b.root", "c.root"]);
    assert_eq!(status, REFUSED);
    assert!(!out.contains("\"passed\",") && !out.contains("\"number\":0"), "{out}");
    let objects: Vec<Json> = out.lines().map(parse).collect();
    let first = |number, place, count| {
        let fields = [("bytes", Json::Number(364)), ("number", number), ("place", place), ("count", count)];
        Json::Object(fields.map(|(name, value)| (name.into(), value)).into())
    };
    for (object, first) in objects.iter().zip([
        first(Json::Null, Json::Null, Json::Number(5)),
        first(Json::Number(13), Json::Number(257), Json::Number(0)),
        Json::Null,
    ]) {
        assert_eq!((object.text("verdict"), object.get("number")), ("refused", &Json::Number(4)));
        assert_eq!(object.get("first_end"), &first);
    }
}

/// The pieces up to END, which are no verdict, and not what stands behind it.
#[test]
fn rows() {
    // Behind END stands what could be a gap.
    let path = store("tail_rows.root", &[&one_root()[..], &(-36i32).to_be_bytes(), &[0; 32]].concat());
    let (status, out, _) = rootaudit(&["--rows", path.to_str().unwrap()]);
    let rows: Vec<&str> = out.lines().skip(1).collect();
    let expected = [
        "no verdict: 100 68 record\tTFile\ta;1",
        "no verdict: 168 50 record\tTObjString\tx;1",
        "no verdict: 218 79 record\tTFile\ta;1",
        "no verdict: 297 12 gap",
        "no verdict: 309 55 record\tTFile\ta;1",
    ];
    assert_eq!((status, rows), (REFUSED, expected.to_vec()));
    let (_, out, _) = rootaudit(&["--json", "--rows", path.to_str().unwrap()]);
    assert_eq!(out.lines().skip(1).filter(|line| line.starts_with("{\"no_verdict\":")).count(), 5);
    // With an END before the first record all of the file is walked.
    let mut file = one_root();
    file[12..16].fill(0);
    let path = store("tail_rows_zero.root", &file);
    let (status, out, _) = rootaudit(&["--rows", path.to_str().unwrap()]);
    assert_eq!((status, out.lines().skip(1).collect::<Vec<&str>>()), (REFUSED, expected.to_vec()));
}

/// The page is red, and draws the pieces up to END.
#[test]
fn page() {
    let folder = folder("tail_page");
    fs::write(folder.join("a.root"), with_tail(&one_root(), 36)).unwrap();
    let (status, _, _) = rootaudit_in(&folder, &["--html", "a.html", "--", "a.root"]);
    let page = fs::read_to_string(folder.join("a.html")).unwrap();
    assert_eq!(status, REFUSED);
    for words in [
        "<header class=\"bad\">",
        "<title>NO PASS: a.root</title>",
        "REFUSED: 4 at byte 0",
        "its first 364 bytes by themselves would pass, and 36 bytes stand behind them",
        "Now: if the recorder still writes it, wait; else keep it as it is and call an analyst.",
        "Do not clear the disk.",
        "Pieces that were reached, no verdict: 5",
        "<td>not reached</td><td class=\"n\"></td><td class=\"n\">36</td>",
        "END in the header: 364",
        "real length: 400",
    ] {
        assert!(page.contains(words), "{words} is not in {page}");
    }
    assert!(!page.contains("class=\"good\"") && !page.contains("PASSED") && !page.contains("copy it again"), "{page}");
}

/// It counts among the refused files, and the good ones beside it are no less good.
#[test]
fn in_the_last_line() {
    let folder = folder("tail_last");
    fs::write(folder.join("a.root"), one_root()).unwrap();
    fs::write(folder.join("b.root"), with_tail(&one_root(), 36)).unwrap();
    let (status, out, _) = rootaudit_in(&folder, &["--", "a.root", "b.root"]);
    let last = "2 files: 1 passed, 1 refused, 0 not read: do not clear the disk";
    assert_eq!((status, out.lines().last()), (REFUSED, Some(last)));
    assert_eq!(rootaudit_in(&folder, &["a.root"]).0, PASSED);
}
