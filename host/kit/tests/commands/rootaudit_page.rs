//! The page that `--html` writes.

use kit::gen::files::one_root_plan;
use kit::gen::strings::counted;
use kit::gen::{nested, one_root, wide_root, Rng};
use kit::harness::command::{folder, rootaudit_in, FAILED, PASSED, REFUSED};
use programs::rootaudit::facts::date;
use programs::rootaudit::words::grouped;
use std::fs;
use std::os::unix::fs::MetadataExt;
use std::path::Path;
use std::time::{SystemTime, UNIX_EPOCH};

/// The page of a file with these bytes, and the exit status.
fn page(folder: &Path, name: &str, bytes: &[u8]) -> (i32, String) {
    fs::write(folder.join(name), bytes).unwrap();
    let (status, _, errors) = rootaudit_in(folder, &["--html", "page.html", "--", name]);
    assert_eq!(errors, "", "{name}");
    let page = fs::read_to_string(folder.join("page.html")).unwrap();
    fs::remove_file(folder.join("page.html")).unwrap();
    expect_self_contained(&page);
    (status, page)
}

/// Nothing is run or fetched, and every element that is begun is ended.
fn expect_self_contained(page: &str) {
    for word in ["<script", "javascript:", "http://", "https://", "src=", "href=", "@import", " onload"] {
        assert!(!page.contains(word), "{word}");
    }
    let url_in_page = page.matches("url(").count() == page.matches("url(#p").count();
    assert!(url_in_page && page.starts_with("<!DOCTYPE html>") && page.ends_with("</html>\n"));
    const TAGS: &str = "html head body header section svg div table tbody tr td ul li dl dt dd h1 h2 p";
    for tag in TAGS.split(' ') {
        let begun = page.matches(&format!("<{tag}>")).count() + page.matches(&format!("<{tag} ")).count();
        assert_eq!(begun, page.matches(&format!("</{tag}>")).count(), "{tag}");
    }
}

fn expect(page: &str, words: &[&str]) {
    for word in words {
        assert!(page.contains(word), "{word:?} is not in {page}");
    }
}

/// Red, and nothing of a pass.
fn expect_red(page: &str) {
    expect(page, &["<header class=\"bad\">", "Do not clear the disk.", "<title>NO PASS: "]);
    assert!(
        !page.contains("class=\"good\"") && !page.contains("PASSED") && !page.contains("keeps every rule"),
        "{page}"
    );
}

#[test]
fn a_pass() {
    let (status, page) = page(&folder("page_pass"), "a.root", &one_root());
    assert_eq!(status, PASSED);
    expect(
        &page,
        &["<header class=\"good\">", "PASSED: 5 pieces", "<title>passed: a.root</title>", "It is no checksum"],
    );
    assert!(!page.contains("class=\"bad\"") && !page.contains("refused") && !page.contains("class=\"fault\""));
    // Each part has its pattern in the bar: gap, head, free, keys, listed, and the header.
    for kind in [0, 1, 2, 4, 5, 9] {
        expect(&page, &[&format!("<pattern id=\"p{kind}\""), &format!("<path fill=\"url(#p{kind})\" d=\"M")]);
    }
    // The gap at its place, hatched: 297 and 12 of 364 bytes on 1000 units.
    expect(&page, &["<path fill=\"url(#p0)\" d=\"M815.93 44.00h32.97v60.00h-32.97z\"/>"]);
    expect(
        &page,
        &[
            "END in the header: 364",
            "real length: 364",
            "Totals by part",
            "a/ at 100: directories 0, other records 1, bytes 50",
        ],
    );
    expect(
        &page,
        &["<td>gap</td><td class=\"n\">1</td><td class=\"n\">12</td><td class=\"n\">3.30 %</td>", "TObjString"],
    );
}

/// Names and classes of 255 bytes and more stand there in full, and are broken where the paper ends.
#[test]
fn long_strings() {
    let mut plan = one_root_plan();
    let [name, class] = ["f".repeat(300), "C".repeat(255)];
    plan.items[0].key.strings[1] = name.clone().into_bytes();
    plan.items[0].names = [counted(name.as_bytes()), counted(b"")].concat();
    plan.items[1].key.strings[0] = class.clone().into_bytes();
    let (status, page) = page(&folder("page_long"), "a.root", &plan.build().bytes);
    assert_eq!(status, PASSED);
    expect(&page, &["PASSED: 5 pieces", &format!(">{name}/ at 100: "), &format!(">{class}<")]);
    expect(&page, &["td.m, li.m { font-family: monospace; overflow-wrap: anywhere; }"]);
}

#[test]
fn a_broken_chain() {
    let mut file = one_root();
    file[297] = 0;
    let (status, page) = page(&folder("page_five"), "a.root", &file);
    assert_eq!(status, REFUSED);
    expect_red(&page);
    expect(&page, &["REFUSED: 5 at byte 297", "Now: copy it again", "What this does not say", "There may be more"]);
    // The flag at its byte, and what was not reached in grey from there on.
    expect(&page, &["d=\"M815.93 104V0\"", ">refused 5 at byte 297</p>"]);
    expect(&page, &["<path fill=\"url(#p10)\" d=\"M815.93 44.00h184.07v60.00h-184.07z\"/>", "not reached"]);
    expect(
        &page,
        &["Around the fault", "here, at byte 297, should a piece begin: refused 5", "<td class=\"m\">x;1</td>"],
    );
    expect(
        &page,
        &["Which records are directories is known of a pass alone", "Pieces that were reached, no verdict: 3"],
    );
}

#[test]
fn a_file_that_is_cut() {
    let (status, page) = page(&folder("page_four"), "a.root", &one_root()[..300]);
    assert_eq!(status, REFUSED);
    expect_red(&page);
    expect(&page, &["REFUSED: 4 at byte 0", "its header says 364 bytes, it has 300"]);
    // Two ticks, at the end of the drawing and at 300 of 364 bytes.
    expect(&page, &["d=\"M1000.00 104V116M824.18 104V116\"", "END in the header: 364", "real length: 300"]);
    // The pieces that are whole, and in grey what follows.
    expect(&page, &["<path fill=\"url(#p10)\" d=\"M815.93 44.00", "stroke-dasharray"]);
    expect(&page, &["Pieces that were reached, no verdict: 3", "No further piece could be read, from byte 297 on."]);
    assert!(!page.contains("Around the fault"));
}

#[test]
fn an_entry() {
    let mut file = one_root();
    file[267] = 0;
    let (status, page) = page(&folder("page_thirteen"), "a.root", &file);
    assert_eq!(status, REFUSED);
    expect_red(&page);
    // The place lies in the keys list, which is marked among its neighbours.
    expect(&page, &["REFUSED: 13 at byte 257", "<tr class=\"fault\"><td class=\"n\">218</td>", "d=\"M706.04 104V0\""]);
}

/// Ten pieces around a fault, and how many of them begin behind it.
fn around(page: &str) -> (usize, usize) {
    let (_, section) = page.split_once("<h2>Around the fault</h2>").unwrap();
    let (section, _) = section.split_once("</section>").unwrap();
    let (before, behind) = section.split_once("<tr class=\"fault\">").unwrap();
    let pieces = |text: &str| text.matches("<tr><td class=\"n\">").count();
    (pieces(before), pieces(behind))
}

#[test]
fn ten_pieces_around_a_fault() {
    let folder = folder("page_around");
    let built = nested::plan(&mut Rng::new(1), 100, 0).build();
    let mut starts: Vec<usize> = built.sites.iter().map(|site| site.start).collect();
    starts.sort();
    let mut file = built.bytes.clone();
    file[starts[50]..][..4].fill(0);
    let (_, broken) = page(&folder, "a.root", &file);
    assert_eq!(around(&broken), (10, 0));
    expect(&broken, &["spectrum;1</td>", "Pieces that were reached, no verdict: 50"]);
    // A copy in the first keys list that is followed by others.
    let list = built.sites.iter().filter(|site| site.copies.len() > 1).min_by_key(|site| site.start).unwrap();
    let mut file = built.bytes.clone();
    file[list.copies[1] + 10] ^= 1;
    let (_, entry) = page(&folder, "a.root", &file);
    expect(&entry, &[&format!("REFUSED: 13 at byte {}", grouped(list.copies[1] as u64))]);
    let (before, behind) = around(&entry);
    assert_eq!(before + 1 + behind, 10);
    assert!(before >= 4, "{before}");
}

/// END and the place may lie anywhere, and the file may be empty.
#[test]
fn odd_places() {
    let folder = folder("page_odd");
    let mut file = one_root();
    file[12..16].fill(0xff);
    expect(&page(&folder, "far.root", &file).1, &["END in the header: 4,294,967,295, far beyond this drawing"]);
    let mut file = one_root();
    file[37..41].fill(0xff);
    expect(&page(&folder, "info.root", &file).1, &["REFUSED: 10 at byte 4,294,967,295", ", beyond the end</p>"]);
    let mut file = wide_root();
    file[12..20].fill(0xff);
    let end = "END in the header: 18,446,744,073,709,551,615, far beyond this drawing";
    expect(&page(&folder, "far_wide.root", &file).1, &[end]);
    let mut file = wide_root();
    file[45..53].fill(0xff);
    let place = "REFUSED: 10 at byte 18,446,744,073,709,551,615";
    expect(&page(&folder, "info_wide.root", &file).1, &[place, ", beyond the end</p>"]);
    for len in [0, 1, 12, 99, 100] {
        expect_red(&page(&folder, "short.root", &one_root()[..len]).1);
        expect_red(&page(&folder, "short_wide.root", &wide_root()[..len]).1);
    }
    let mut file = one_root();
    file[32] = 8;
    expect(&page(&folder, "wide.root", &file).1, &["REFUSED: 3 at byte 0"]);
}

/// Every way of damage has a page that is no pass.
#[test]
fn every_byte_damaged() {
    let folder = folder("page_damaged");
    for at in (0..364).step_by(3) {
        let mut file = one_root();
        file[at] ^= 0x40;
        let (status, page) = page(&folder, "a.root", &file);
        assert_eq!(status == PASSED, page.contains("<header class=\"good\">"), "{at}");
        assert_eq!(status == PASSED, page.contains("PASSED"), "{at}");
    }
}

#[test]
fn many_pieces() {
    let pieces = 200_000;
    let file = nested::plan(&mut Rng::new(1), pieces, 0).build().bytes;
    let (status, page) = page(&folder("page_many"), "many.root", &file);
    assert_eq!(status, PASSED);
    expect(
        &page,
        &["PASSED: 200,000 pieces", "Pieces: 200,000", "199,000 pieces are left out here, of 200,000 in all"],
    );
    expect(&page, &["The first 300 of 10,000 directories.", "Each column is 46,740 bytes", "TBasket"]);
    assert_eq!(page.matches("<tr><td class=\"n\">").count(), 1000);
    assert!(page.len() < 1_000_000, "{} bytes", page.len());
}

/// Names and classes of the file cannot add to the page.
#[test]
fn names_are_text() {
    let folder = folder("page_names");
    let mut file = one_root();
    // A name of one byte in the object's key and in its copy.
    for at in [206, 295] {
        assert_eq!(file[at], b'x');
        file[at] = b'<';
    }
    let (status, page) = page(&folder, "<b>&\".root", &file);
    assert_eq!(status, PASSED);
    expect(&page, &["<td class=\"m\">&lt;;1</td>", "<title>passed: &lt;b&gt;&amp;&quot;.root</title>"]);
    assert!(!page.contains("<b>"));
}

/// When the audit was made, which length and dates the file had, and whether it was read.
#[test]
fn facts() {
    let folder = folder("page_facts");
    let (_, read_not) = page(&folder, "a.root", &one_root());
    let known = fs::metadata(folder.join("a.root")).unwrap();
    let [modified, changed] = [(known.mtime(), known.mtime_nsec()), (known.ctime(), known.ctime_nsec())]
        .map(|(seconds, nanoseconds)| format!("<dd>{}.{nanoseconds:09}Z</dd>", date(seconds)));
    expect(&read_not, &["<dt>made</dt><dd>2", "<dt>length of the file</dt><dd>364 bytes</dd>"]);
    expect(&read_not, &[&format!("(mtime)</dt>{modified}"), &format!("(ctime)</dt>{changed}")]);
    expect(&read_not, &["<dd>not given: the data of objects need not have been fetched</dd>", "need not be fetched"]);
    expect(&read_not, &["<footer>rootaudit "]);
    assert!(!read_not.contains("even fetched"));
    let (status, _, _) = rootaudit_in(&folder, &["--read", "--html", "read.html", "a.root"]);
    let read = fs::read_to_string(folder.join("read.html")).unwrap();
    assert_eq!(status, PASSED);
    expect(&read, &["<dd>given: every byte was fetched</dd>"]);
}

/// The time of the audit is that of the clock.
#[test]
fn when() {
    let folder = folder("page_when");
    let now = || date(SystemTime::now().duration_since(UNIX_EPOCH).unwrap().as_secs() as i64) + "Z";
    let before = now();
    let (_, page) = page(&folder, "a.root", &one_root());
    let (_, made) = page.split_once("<dt>made</dt><dd>").unwrap();
    let (made, _) = made.split_once("</dd>").unwrap();
    assert!((before.as_str()..=now().as_str()).contains(&made), "{before} {made}");
}

/// It can be read on a narrow screen: text keeps its size, and what is wide scrolls in a box of its own.
#[test]
fn narrow_screens() {
    let folder = folder("page_narrow");
    let mut bad = one_root();
    bad[297] = 0;
    for file in [one_root(), bad, one_root()[..300].to_vec()] {
        let (_, page) = page(&folder, "a.root", &file);
        expect(&page, &["<meta name=\"viewport\" content=\"width=device-width, initial-scale=1\">"]);
        expect(&page, &[".box { overflow-x: auto; }", "<p class=\"tick right\" style=\"margin-right:calc("]);
        // The drawing shrinks with the screen, and has no text.
        assert!(!page.contains("<text"));
        let in_boxes = page.matches("<div class=\"box\">\n<table>").count();
        assert_eq!((in_boxes, in_boxes > 0), (page.matches("<table").count(), true));
    }
}

#[test]
fn a_file_that_is_not_read() {
    let folder = folder("page_none");
    let (status, out, _) = rootaudit_in(&folder, &["--html", "page.html", "none.root"]);
    assert_eq!(status, FAILED);
    assert!(out.starts_with("none.root: could not be read: "));
    let page = fs::read_to_string(folder.join("page.html")).unwrap();
    expect_self_contained(&page);
    expect_red(&page);
    expect(&page, &["NOT AUDITED", "No such file or directory", "<dt>made</dt><dd>2"]);
    expect(&page, &["<dt>length of the file</dt><dd>not known</dd>", "(mtime)</dt><dd>not known</dd>"]);
}

/// No file is written over, and a page that cannot be written is status 2.
#[test]
fn pages_that_cannot_be() {
    let folder = folder("page_there");
    for name in ["a.root", "b.root"] {
        fs::write(folder.join(name), one_root()).unwrap();
    }
    for page in ["b.root", "a.root", "no such folder/page.html", "/dev/full"] {
        let (status, out, errors) = rootaudit_in(&folder, &["--html", page, "a.root"]);
        assert_eq!((status, out.as_str()), (FAILED, ""), "{page}");
        assert!(errors.starts_with("rootaudit: output: the page: "), "{page}: {errors}");
    }
    for name in ["a.root", "b.root"] {
        assert_eq!(fs::read(folder.join(name)).unwrap(), one_root());
    }
}
