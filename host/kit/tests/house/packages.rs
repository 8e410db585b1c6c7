//! Three packages, each over what it may stand on, and nothing from a registry.

use kit::harness::folder::{document, repository};
use std::path::Path;
use std::{fs, iter};

/// The packages that a package names as its own dependencies, of any kind.
fn dependencies(package: &str) -> Vec<String> {
    let manifest = document(&format!("host/{package}/Cargo.toml"));
    let mut section = "";
    let mut named = Vec::new();
    for line in manifest.lines() {
        if line.starts_with('[') {
            section = line;
        } else if section.contains("dependencies") && line.contains('=') {
            named.push(line.split('=').next().unwrap().trim().to_owned());
        }
    }
    named
}

/// The second and the fast program know nothing of the library, and nothing that is installed knows of them.
#[test]
fn what_stands_on_what() {
    assert_eq!(dependencies("programs"), [""; 0]);
    assert_eq!(dependencies("second"), [""; 0]);
    assert_eq!(dependencies("kit"), ["programs", "second"]);
}

/// No package comes from elsewhere.
#[test]
fn no_registry() {
    let lock = document("host/Cargo.lock");
    let names: Vec<&str> = lock.lines().filter_map(|line| line.strip_prefix("name = ")).collect();
    assert_eq!(names, ["\"kit\"", "\"programs\"", "\"second\""]);
    assert!(!lock.contains("source = "));
}

fn sources(folder: &Path) -> Vec<String> {
    let entries = fs::read_dir(folder).unwrap().map(|entry| entry.unwrap().path());
    let text = |path: std::path::PathBuf| {
        if path.is_dir() {
            sources(&path)
        } else {
            iter::once(fs::read_to_string(path).unwrap()).collect()
        }
    };
    entries.flat_map(text).collect()
}

/// Not by another way either: the second program calls no function of C.
#[test]
fn the_second_program_is_safe_rust() {
    let texts = sources(&repository().join("host/second/src"));
    assert!(texts.len() > 10 && texts.iter().any(|text| text.contains("#![forbid(unsafe_code)]")));
    assert!(!texts.iter().any(|text| text.contains("extern \"C\"") || text.contains("rootmap_")));
}
