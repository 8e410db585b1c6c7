//! A file of more than 6 GB through the commands: a directory, what it lists and its keys list stand past 2^32.

use kit::gen::fields::Field;
use kit::gen::files::{end, Built, Plan, Site};
use kit::gen::mixes::{Mix, DIR, LIST_OF_DIR, PIECES, Y};
use kit::harness::command::{folder, line, printed, rootaudit, rootaudit_in, PASSED, REFUSED, ROOTKEYS};
use kit::harness::sparse::Sparse;
use programs::rootaudit::words::grouped;
use second::audit::Row;
use second::part;
use std::fs;
use std::path::Path;
use std::process::Command;

/// Where the directory stands.
const FAR: usize = (3 << 31) + 7;

struct Large {
    plan: Plan,
    sites: Vec<Site>,
    sparse: Sparse,
}

impl Large {
    fn new(name: &str) -> Option<Self> {
        let plan = Mix::WIDE.plan_with_directory_at(FAR);
        let sites = plan.sites();
        let sparse = Sparse::new(name, end(&sites), plan.laid(&sites))?;
        assert_eq!(sites[DIR].start, FAR);
        Some(Large { plan, sites, sparse })
    }

    fn path(&self) -> &Path {
        &self.sparse.path
    }

    /// The rows of a pass.
    fn rows(&self) -> Vec<Row> {
        self.plan.rows(&Built { bytes: Vec::new(), header: self.plan.header_at(), sites: self.sites.clone() })
    }

    /// A row as it is printed, up to the key.
    fn printed(&self, index: usize) -> String {
        let site = &self.sites[index];
        let row = self.rows().into_iter().find(|row| row.start == site.start as u64).unwrap();
        format!("{} {} {} {}", row.start, site.size, part::NAMES[row.part as usize], row.owner)
    }

    /// Does something while the byte at a place has other bits.
    fn with_byte(&self, at: usize, bits: u8, act: impl FnOnce()) {
        let mut stretches = self.plan.laid(&self.sites);
        let (start, bytes) = stretches.find(|(start, bytes)| (*start..start + bytes.len()).contains(&at)).unwrap();
        let byte = bytes[at - start];
        self.sparse.write(at, &[byte ^ bits]);
        act();
        self.sparse.write(at, &[byte]);
    }
}

/// Two gaps more than in the small file.
#[test]
fn passes() {
    let Some(large) = Large::new("large_passes.root") else { return };
    let pieces = PIECES + 2;
    let (status, out, errors) = rootaudit(&["--rows".as_ref(), large.path()]);
    let lines: Vec<&str> = out.lines().collect();
    assert_eq!((status, errors.as_str(), lines.len()), (PASSED, "", 1 + pieces));
    assert_eq!(lines[0], line(large.path(), &format!("passed {pieces}")).trim_end());
    for (index, key) in [(DIR, "\tTDirectory\td;"), (Y, "\tTH1F\ty;"), (LIST_OF_DIR, "\tTDirectory\td;")] {
        let row = large.printed(index) + key;
        assert!(lines.iter().any(|line| line.starts_with(&row)), "{row} is not in {out}");
    }
    let (status, out, _) = rootaudit(&["--json".as_ref(), "--rows".as_ref(), large.path()]);
    let place = format!(
        ",\"place\":{},\"size\":{},\"part\":\"listed\",\"owner\":{FAR},",
        large.sites[Y].start, large.sites[Y].size
    );
    assert!(status == PASSED && out.contains(&place), "{out}");
    assert!(out.contains(&format!("\"bytes\":{},", end(&large.sites))), "{out}");
}

#[test]
fn the_page_and_the_keys() {
    let Some(large) = Large::new("large_page.root") else { return };
    let folder = folder("large_page");
    let (status, _, _) = rootaudit_in(&folder, &["--html", "page.html", "--", large.path().to_str().unwrap()]);
    let page = fs::read_to_string(folder.join("page.html")).unwrap();
    let (place, len) = (grouped(FAR as u64), grouped(end(&large.sites) as u64));
    assert_eq!(status, PASSED);
    for words in [
        format!("d/ at {place}: directories 0, other records 1"),
        format!("END in the header: {len}"),
        format!("real length: {len}"),
    ] {
        assert!(page.contains(&words), "{words} is not in the page");
    }
    let (status, out, _) = printed(Command::new(ROOTKEYS).arg(large.path()).output().unwrap());
    assert_eq!((status, out.lines().count()), (0, PIECES + 3), "{out}");
    assert!(out.contains(&format!("\n{FAR}\t{}\trecord\tTDirectory\td;", large.sites[DIR].size)), "{out}");
}

/// One byte is changed past 2^32: what is refused, and where.
#[test]
fn one_byte_broken() {
    let Some(large) = Large::new("large_broken.root") else { return };
    let [dir, y, list] = [DIR, Y, LIST_OF_DIR].map(|index| &large.sites[index]);
    let copy = list.copies[0];
    let last_byte = |field: Field| field.at + field.width - 1;
    for (at, number, place) in [
        (dir.start, 5, dir.start),
        (last_byte(dir.key().seek_key()), 6, dir.start),
        (dir.key().seek_key().at + 3, 6, dir.start),
        (last_byte(y.key().seek_key()), 6, y.start),
        (last_byte(dir.directory().seek_dir()), 11, dir.start),
        (dir.directory().seek_dir().at + 3, 11, dir.start),
        (last_byte(dir.directory().seek_parent()), 11, dir.start),
        (last_byte(dir.directory().seek_keys()), 12, list.start ^ 1),
        (dir.directory().seek_keys().at + 3, 12, list.start ^ 1 << 32),
        (last_byte(list.key().seek_pdir()), 12, list.start),
        (list.key().seek_pdir().at + 3, 12, list.start),
        (last_byte(list.nkeys()), 12, list.start),
        (copy + 10, 13, copy),
        (copy + 18 + 8 + 3, 13, copy),
    ] {
        large.with_byte(at, if number == 5 { 0x40 } else { 1 }, || {
            let (status, out, _) = rootaudit(&[large.path()]);
            assert_eq!(status, REFUSED, "{at}");
            let words = format!("{}: refused {number} at {place}: ", large.path().display());
            assert!(out.starts_with(&words), "{out} but {words}");
        });
    }
    assert_eq!(rootaudit(&[large.path()]).0, PASSED);
}

/// The same as JSON with rows, and as a page.
#[test]
fn one_byte_broken_in_json_and_on_the_page() {
    let Some(large) = Large::new("large_broken_page.root") else { return };
    let folder = folder("large_broken_page");
    let [dir, list] = [DIR, LIST_OF_DIR].map(|index| &large.sites[index]);
    for (at, number, place) in [
        (dir.key().seek_key().at + 3, 6, dir.start),
        (dir.directory().seek_dir().at + 3, 11, dir.start),
        (dir.directory().seek_keys().at + 3, 12, list.start ^ 1 << 32),
    ] {
        let page = format!("{number}.html");
        let arguments = ["--json", "--rows", "--html", &page, "--", large.path().to_str().unwrap()];
        large.with_byte(at, 1, || {
            let (status, out, errors) = rootaudit_in(&folder, &arguments);
            assert_eq!((status, errors.as_str()), (REFUSED, ""), "{out}");
            let answer = format!("\"verdict\":\"refused\",\"number\":{number},\"place\":{place},\"count\":0,");
            assert!(out.contains(&answer), "{out} but {answer}");
            // Two more gaps come before the directory; the chain breaks there, or not at all.
            let pieces = if number == 6 { DIR + 2 } else { PIECES + 2 };
            assert_eq!(out.lines().skip(1).filter(|line| line.starts_with("{\"no_verdict\":")).count(), pieces);
            assert_eq!(out.lines().count(), 1 + pieces, "{out}");
        });
        let page = fs::read_to_string(folder.join(page)).unwrap();
        let words = format!("<h1>REFUSED: {number} at byte {}</h1>", grouped(place as u64));
        assert!(page.contains(&words) && page.contains(&grouped(FAR as u64)), "{words} is not in the page");
    }
}

/// Every byte is fetched.
#[test]
fn read() {
    let Some(large) = Large::new("large_read.root") else { return };
    let words = format!("passed {}", PIECES + 2);
    let found = rootaudit(&["--read".as_ref(), large.path()]);
    assert_eq!(found, (PASSED, line(large.path(), &words), String::new()));
}
