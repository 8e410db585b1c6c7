//! The list program, beside the second program: the same text for the same input.

use kit::gen::fields::Field;
use kit::gen::files::{one_root_plan, plan, wide_root_plan, Item, Role, SMALL};
use kit::gen::{damage, one_root, wide_root, Rng, ONE_ROOT_LIST, WIDE_ROOT_LIST};
use kit::harness::folder::repository;
use kit::harness::root_folder::root_files;
use second::audit::audit;
use second::{number, part};
use std::fs;
use std::io::Write;
use std::process::{Command, Stdio};

const MOST_BYTES: usize = 32_768;
const ROWS: usize = 1024;

/// What the proved program prints. Its input is no longer than a pipe holds, or is all read.
fn printed(file: &[u8]) -> String {
    let program = repository().join("crates/rootmap/out/rootmap");
    let mut child = Command::new(&program)
        .stdin(Stdio::piped())
        .stdout(Stdio::piped())
        .spawn()
        .unwrap_or_else(|error| panic!("{}: {error}; host/run-tests builds it", program.display()));
    let mut input = child.stdin.take().unwrap();
    // It may end before it has read all of too long an input.
    let _ = input.write_all(file);
    drop(input);
    let output = child.wait_with_output().unwrap();
    assert!(output.status.success());
    String::from_utf8(output.stdout).unwrap()
}

/// What document 01 has for the same bytes, by the second program.
fn expected(file: &[u8]) -> String {
    if file.len() > MOST_BYTES {
        return "input too long\n".into();
    }
    let (answer, rows) = audit(file, ROWS);
    match answer.number {
        0 => {
            let ends = rows.iter().skip(1).map(|row| row.start as usize).chain([file.len()]);
            let lines = rows.iter().zip(ends).map(|(row, end)| {
                let name = part::NAMES[row.part as usize];
                format!("{} {} {name} {}\n", row.start, end - row.start as usize, row.owner)
            });
            format!("passed {}\n{}", answer.count, lines.collect::<String>())
        }
        number::UNFINISHED => format!("unfinished {}\n", answer.count),
        refusal => format!("refused {refusal} {}\n", answer.place),
    }
}

fn compare(file: &[u8]) {
    assert_eq!(printed(file), expected(file), "{} bytes", file.len());
}

/// one.root with gaps of four bytes at its end, so that it has this many pieces.
fn gaps(pieces: usize) -> Vec<u8> {
    let mut plan = one_root_plan();
    let mut rng = Rng::new(1);
    while plan.items.len() < pieces {
        plan.add(Item::new(&mut rng, Role::Gap, "", ""));
    }
    plan.build().bytes
}

#[test]
fn one_root_as_document_01_has_it() {
    assert_eq!(printed(&one_root()), ONE_ROOT_LIST);
    assert_eq!(printed(&wide_root()), WIDE_ROOT_LIST);
}

#[test]
fn one_root_damaged() {
    for whole in [one_root(), wide_root()] {
        for at in 0..whole.len() {
            let mut file = whole.clone();
            file[at] ^= 1 << (at % 8);
            compare(&file);
        }
        for end in (0..whole.len()).step_by(7) {
            compare(&whole[..end]);
        }
    }
}

#[test]
fn as_many_pieces_as_rows_and_one_more() {
    let [full, over] = [ROWS, ROWS + 1].map(gaps);
    assert!(printed(&full).starts_with("passed 1024\n"));
    assert_eq!(printed(&over), "unfinished 1025\n");
    compare(&full);
}

#[test]
fn as_many_bytes_as_are_taken_and_one_more() {
    for len in [MOST_BYTES - 1, MOST_BYTES, MOST_BYTES + 1, MOST_BYTES + 20_000] {
        compare(&vec![0; len]);
    }
    for form in [one_root_plan, wide_root_plan] {
        let sizes = |end: usize| {
            let mut plan = form();
            let rest = plan.build().bytes.len();
            plan.items[1].data.extend(vec![1; end - rest]);
            plan.build().bytes
        };
        assert!(printed(&sizes(MOST_BYTES)).starts_with("passed 5\n"));
        assert_eq!(printed(&sizes(MOST_BYTES + 1)), "input too long\n");
    }
}

/// Titles of 254 to 256 bytes and of 10,000; a length of 254 in five bytes is 6.
#[test]
fn long_titles() {
    for form in [one_root_plan, wide_root_plan] {
        for len in [254, 255, 256, 10_000] {
            let mut plan = form();
            plan.items[1].key.strings[2] = vec![b't'; len];
            let mut built = plan.build();
            assert!(printed(&built.bytes).starts_with("passed 5\n"));
            compare(&built.bytes);
            if len > 254 {
                let title = built.sites[1].start + built.sites[1].keylen - len;
                built.put(Field { at: title - 4, width: 4 }, 254);
                assert_eq!(printed(&built.bytes), format!("refused 6 {}\n", built.start(1)));
            }
        }
    }
}

#[test]
fn random_files() {
    let mut rng = Rng::new(0x11_57);
    for round in 0..600 {
        let mut file = plan(&mut rng, SMALL).build().bytes;
        if round % 2 == 1 {
            let at = rng.below(file.len());
            damage(&mut rng, &mut file, at);
        }
        compare(&file);
    }
}

#[test]
fn files_written_by_root() {
    for path in root_files().unwrap_or_default() {
        let file = fs::read(&path).unwrap();
        compare(&file);
        // Its baskets have keys with eight-byte offsets.
        if path.ends_with("advanced_zlib.root") {
            assert!(printed(&file).starts_with("passed 18\n"));
        }
    }
}
