//! The C header: a C program over it is compiled, linked with the library and run.

use kit::harness::c_program::{compiler, run, run_c_program};
use kit::harness::folder::{document, repository, tmp};
use programs::ffi;
use second::{number, part};
use std::process::Command;

#[test]
fn c_program() {
    assert_eq!(run_c_program("use_rootmap"), "all checks passed\n");
}

/// NULL is taken wherever a length is 0.
#[test]
fn null_of_length_0() {
    assert_eq!(run_c_program("use_null"), "all checks passed\n");
}

#[test]
fn c_plus_plus_takes_the_header() {
    let source = tmp().join("header.cc");
    std::fs::write(&source, "#include \"rootmap.h\"\n#include \"rootmap.h\"\n").unwrap();
    run(compiler("CXX", "c++").arg("-fsyntax-only").arg(source));
}

/// The names of the numbers.
const NUMBERS: [(&str, u64); 26] = [
    ("PASSED", 0),
    ("SHORT", number::SHORT),
    ("MAGIC", number::MAGIC),
    ("WIDE", number::WIDE),
    ("BOUNDS", number::BOUNDS),
    ("CHAIN", number::CHAIN),
    ("KEY", number::KEY),
    ("UNFINISHED", number::UNFINISHED),
    ("HEAD", number::HEAD),
    ("FREE", number::FREE),
    ("INFO", number::INFO),
    ("DIRECTORY", number::DIRECTORY),
    ("KEYS", number::KEYS),
    ("ENTRY", number::ENTRY),
    ("TWICE", number::TWICE),
    ("NAME", number::NAME),
    ("FIELD", number::FIELD),
    ("ROOM", number::ROOM),
    ("DATE", number::DATE),
    ("PACKED", number::PACKED),
    ("NOT_INFO", number::NOT_INFO),
    ("COUNT", number::COUNT),
    ("TAG", number::TAG),
    ("REFERENCED", number::REFERENCED),
    ("ROWS", number::ROWS),
    ("SALVAGE", number::SALVAGE),
];

/// The names of the fields of a piece.
const FIELDS: [(&str, usize); 16] = [
    ("KIND", ffi::KIND),
    ("NBYTES", ffi::NBYTES),
    ("VERSION", ffi::VERSION),
    ("OBJLEN", ffi::OBJLEN),
    ("DATIME", ffi::DATIME),
    ("KEYLEN", ffi::KEYLEN),
    ("CYCLE", ffi::CYCLE),
    ("SEEK_KEY", ffi::SEEK_KEY),
    ("SEEK_PDIR", ffi::SEEK_PDIR),
    ("CLASS", ffi::CLASS),
    ("CLASS_LEN", ffi::CLASS + 1),
    ("NAME", ffi::NAME),
    ("NAME_LEN", ffi::NAME + 1),
    ("TITLE", ffi::TITLE),
    ("TITLE_LEN", ffi::TITLE + 1),
    ("FIELDS", ffi::FIELDS),
];

fn header() -> String {
    document("include/rootmap.h")
}

/// Every number, part, kind and field of the header is that of the second program, or of `ffi`.
#[test]
fn names_of_numbers() {
    let parts = (0..).zip(part::NAMES).map(|(value, name)| (format!("PART_{}", name.to_uppercase()), value));
    let others = [("KIND_RECORD", ffi::RECORD), ("KIND_GAP", ffi::GAP), ("VERSION", ffi::version::HEADER)];
    let numbers = NUMBERS.iter().chain(&others).map(|&(name, value)| (name.to_owned(), value));
    let fields = FIELDS.map(|(name, value)| (format!("PIECE_{name}"), value as u64));
    let all: Vec<(String, u64)> = numbers.chain(parts).chain(fields).collect();
    let checks: String =
        all.iter().map(|(name, value)| format!("_Static_assert(ROOTMAP_{name} == {value}, \"{name}\");\n")).collect();
    let source = tmp().join("names.c");
    std::fs::write(&source, format!("#include \"rootmap.h\"\n{checks}")).unwrap();
    run(compiler("CC", "cc").args(["-std=c11", "-fsyntax-only"]).arg(source));
    assert_eq!(header().matches("#define ROOTMAP_").count(), all.len() + 1, "a name that is not tested");
}

/// The manual of the library has every function of the header and every name with its number.
#[test]
fn the_manual_has_all() {
    let header = header();
    let manual = document("man/rootmap.3").replace("\\-", "-");
    let lines: Vec<&str> = manual.lines().collect();
    let functions = header.lines().filter(|line| line.starts_with("uint64_t ") || line.starts_with("void "));
    let functions: Vec<&str> = functions.map(|line| line.split(['(', ' ']).nth(1).unwrap()).collect();
    assert_eq!(functions.len(), 10);
    let (names, rest) = manual.split_once(".SH SYNOPSIS\n").unwrap();
    let (synopsis, described) = rest.split_once(".SH DESCRIPTION\n").unwrap();
    for function in functions {
        assert!(names.contains(function), "{function}: NAME");
        assert!(synopsis.contains(&format!("{function}(")), "{function}: SYNOPSIS");
        assert!(described.contains(&format!(".SS {function}\n")), "{function}: DESCRIPTION");
    }
    let defined = header.lines().filter_map(|line| line.strip_prefix("#define ROOTMAP_")).filter(|line| *line != "H");
    for mut words in defined.map(str::split_whitespace) {
        let (name, value) = (words.next().unwrap(), words.next().unwrap());
        assert!(lines.contains(&format!(".BR ROOTMAP_{name} \" ({value})\"").as_str()), "{name} {value}");
    }
}

/// Its example is README's.
#[test]
fn the_manual_has_the_example() {
    let readme = document("README.md");
    let mut blocks = readme.split("```c\n").skip(1).map(|block| block.split_once("```").unwrap().0);
    let example = blocks.find(|block| block.contains("int passes(")).unwrap();
    assert!(document("man/rootmap.3").contains(&format!(".EX\n{example}.EE\n")));
}

#[test]
fn the_manual_is_set_without_a_warning() {
    if !kit::harness::command::is_there("groff") {
        return;
    }
    let page = repository().join("man/rootmap.3");
    let output = Command::new("groff").args(["-man", "-ww", "-z", "-Tutf8"]).arg(page).output().unwrap();
    assert_eq!(kit::harness::command::printed(output), (0, String::new(), String::new()));
}
