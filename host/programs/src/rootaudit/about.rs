//! What the command says of itself: its help, its manual and README's table are made of it.

use super::numbers;
use crate::usage::{Argument, Block, Program, Section, Switch, END, HELP};

pub const PROGRAM: Program = Program {
    name: "rootaudit",
    about: "audit ROOT files through the proved library",
    operands: "[--] [FILE...]",
    description: &[
        Block::Text("Audits ROOT files through the proved library, and prints a line a file:"),
        Block::Lines(
            "FILE: passed N                       all of its N pieces keep every rule\n\
             FILE: refused NUMBER at PLACE: ...   the first rule that is broken, and what to do now\n\
             FILE: could not be read: ...         or what else kept it from being audited",
        ),
        Block::Text(
            "Where more than one file is named, a last line counts them. Only `passed` is a pass. Whatever else a \
             line says: do not clear the disk.",
        ),
        Block::Text(
            "An audit reads the structure of a file: its header, records, gaps, free list, directories and their \
             lists. A pass is no checksum: the data of an object are not unpacked or looked into, and without \
             `--read` they need not be fetched, so that a bad sector there goes unseen.",
        ),
    ],
    options: &[
        Switch {
            flags: &["--rows"],
            argument: Argument::None,
            help: "after a pass, a line a piece: place, size, part and owner, as in `168 50 listed 100`, then behind \
                   tabs class and `name;cycle` of a record. The parts are gap, head, free, info, keys, listed, dir \
                   and unlisted (a record that no directory lists, as baskets are: no fault). The owner is the place \
                   of the directory that a keys, listed or dir piece belongs to, else 0. After a refusal 4, 5, 6 or \
                   8 to 14 the pieces that the chain has, each line marked `no verdict`",
        },
        Switch {
            flags: &["--json"],
            argument: Argument::None,
            help: "an object of JSON a line: `name` (in it each byte that is not printable ASCII is `\\xNN` and a \
                   backslash is doubled, before JSON's own escapes), `verdict` (`passed`, `refused` or `not read`), \
                   `number`, `place`, `count`, `bytes`, `words`, `path` (the name as it is; null where it is no \
                   UTF-8), `modified` and `changed` (mtime and ctime), `time` (when the audit was made), `read` \
                   (`--read` was given), `fetched` (every byte was fetched), `version`, and `first_end` (null, or of \
                   a file longer than END what its first END bytes would be, which is never a pass). With `--rows` \
                   a line a piece follows the line of its file: `row`, or `no_verdict` where there is no pass. A \
                   later object of the same file, `not read`, takes its pass back. The last object has `files`, \
                   `passed`, `refused`, `not_read`, `repeated`, `expected` and `words`",
        },
        Switch { flags: &["--quiet"], argument: Argument::None, help: "print only what is no pass, and the last line" },
        Switch {
            flags: &["--read"],
            argument: Argument::None,
            help: "fetch every byte too, and report a read error. A file is audited first, and a refused one is told \
                   of at once; else every byte is fetched and it is audited again. The system is asked to read the \
                   disk and not its memory, which it need not do",
        },
        Switch {
            flags: &["--expect"],
            argument: Argument::Number("N"),
            help: "status 2 unless N different files are named, so that a missing night is noticed; one that is \
                   named twice counts once. The last line is printed for one file too",
        },
        Switch {
            flags: &["--html"],
            argument: Argument::File("PAGE"),
            help: "write a page about the one file that is named: its verdict, the file drawn to scale, its \
                   directories and pieces. No script; it prints well; no file is ever written over",
        },
        Switch {
            flags: &["-j"],
            argument: Argument::Number("N"),
            help: "audit up to N files at once, 1 to 1024, and 1 if it is not said. What is printed is in the order \
                   of the names",
        },
        Switch {
            flags: &["-r"],
            argument: Argument::Folder("DIR"),
            help: "audit every file below a folder, in the order of the bytes of their paths; it may be said more \
                   than once, and files that are named go first. All that stands there and is no folder is audited, \
                   whatever its name: what is no ROOT file is no pass, nor is a pipe, a device, a link to a folder, \
                   which is not followed, or a folder that cannot be read. A DIR with no file below it is status 2. \
                   A file that comes there after the folders were read is not seen",
        },
        Switch {
            flags: &["--files0-from"],
            argument: Argument::File("F"),
            help: "take the names of all files from F, a NUL after or between them, as `find -print0` writes them; \
                   `-` is standard input. No list is too long for it, and `--expect` counts all of it. Status 2 if \
                   it cannot be read, has no name or an empty one, or if files or folders are named besides",
        },
        HELP,
        Switch {
            flags: &["--version"],
            argument: Argument::None,
            help: "print the version 0.N.0, where N is that of the library, which of the requests that change \
                   verdicts (`CHANGELOG.md`) are in, the commit and the toolchain. It stands alone",
        },
        Switch { help: "what follows are files: write `rootaudit -- *.root`", ..END },
    ],
    statuses: &[
        (0, "every file passed, and all of the output was written"),
        (1, "a file was refused, and all could be read"),
        (
            2,
            "a file could not be read or audited, another number was expected, the output did not reach its end, \
             the command line is wrong, or the library in it is of another version. 2 goes before 1",
        ),
    ],
    sections: &[
        Section {
            title: "Before you clear a disk",
            blocks: &[
                Block::Text(
                    "Checksums made on the disk show that the copy is the same; the audit shows that what was \
                     copied is whole. 19 is how many nights the logbook has, not how many files happen to be there; \
                     /copy is a new folder. The audit with `--read` comes before the checksums, so that these are \
                     made of what the copy's disk has, and not of what is still in memory:",
                ),
                Block::Lines(RECIPE),
                Block::Text(
                    "Unless its last line is `may be cleared`, keep the disk. Files that are not named *.root, or \
                     that stand in folders below, were not looked at.",
                ),
            ],
        },
        Section {
            title: "Refusals",
            blocks: &[
                Block::Text(
                    "The number is that of the first rule that is broken, in a fixed order, and the place is where; \
                     there may be more. For the disk each means the same: do not clear it.",
                ),
                Block::Terms(refusals),
            ],
        },
        Section {
            title: "Examples",
            blocks: &[
                Block::Text("Nineteen nights that stand in one folder:"),
                Block::Lines("rootaudit --expect 19 -- *.root"),
                Block::Text("All files below a folder, four at once, and only what is no pass:"),
                Block::Lines("rootaudit -j 4 --quiet -r /disk"),
                Block::Text("More files than a command line takes, by name, in folders below:"),
                Block::Lines("find /disk -name '*.root' -print0 | sort -z | rootaudit --expect 6935 --files0-from -"),
                Block::Text("In a log a pass is a line that this finds, unless a later line takes it back:"),
                Block::Lines("grep -E ': passed [1-9][0-9]*$'"),
                Block::Text("The pieces of a file, and a page about it:"),
                Block::Lines("rootaudit --rows -- run12.root\nrootaudit --html run12.html -- run12.root"),
            ],
        },
        Section {
            title: "Names",
            blocks: &[
                Block::Text(
                    "In names, backslashes, control and format characters, bytes that are no UTF-8, and a colon \
                     before a blank or at the end are escaped. The first `: ` of a line ends the name, and two names \
                     never print alike, though letters of two alphabets may look alike.",
                ),
                Block::Text(
                    "An option that is also the name of a file in the current folder is status 2, unless the file \
                     is named too: `*` may have named it. Write `./*`, or `--` before the files.",
                ),
            ],
        },
        Section {
            title: "Notes",
            blocks: &[
                Block::Text(
                    "A file that changes is not to be audited. Device, inode, length and both dates of the open \
                     file, and of what stands at its path, are compared before and after the audit, and those of \
                     the path again when all files are done; a difference is no pass. A pass that was printed is \
                     then taken back by a line `no pass any more`. A change within the same tick of the file \
                     system's clock, through a mapping that was dirty already, or below the file system is not \
                     noticed.",
                ),
                Block::Text(
                    "A file that cannot be read any more while it is audited, as it was cut short or its disk failed, \
                     is `could not be read`: status 2. The files after it are audited all the same.",
                ),
                Block::Text("While it takes long, standard error shows how far it is, if it is a terminal."),
                Block::Text(
                    "The build is reproducible: the same sources, library and compilers give the same bits of the \
                     program, whatever folder they stand in.",
                ),
            ],
        },
        Section {
            title: "See also",
            blocks: &[Block::Text(
                "rootkeys(1), rootmap(3), sha256sum(1), find(1); the rules for a pass in plain words, in \
                 share/doc/rootmap/RULES.md where it is installed.",
            )],
        },
    ],
};

/// README has the same.
const RECIPE: &str = "\
mkdir /copy &&
(cd /disk && sha256sum -- *.root) > /copy/SHA256SUMS &&
cp -- /disk/*.root /copy/ && sync && cd /copy &&
rootaudit --read --expect 19 -- *.root &&
sha256sum --strict -c SHA256SUMS &&
echo \"may be cleared\"
";

/// The numbers that an audit answers.
fn refusals() -> Vec<(String, String)> {
    let rows = numbers::TABLE.iter().filter(|row| row.number <= numbers::LAST_OF_AUDIT);
    let text = |row: &numbers::Row| {
        format!("{}. Its place: {}. Often because: {}. Now: {}.", row.wrong, row.place, row.because, row.now)
    };
    rows.map(|row| (row.number.to_string(), text(row))).collect()
}
