//! What the command says of itself: its help, its manual and README's table are made of it.

use crate::usage::{Argument, Block, Program, Section, Switch, END, HELP};

pub const PROGRAM: Program = Program {
    name: "rootkeys",
    about: "list the pieces of ROOT files, without an audit",
    operands: "[--] FILE...",
    description: &[
        Block::Text(
            "Lists the pieces of each ROOT file from byte 100 on, a line a piece, tabs between: place, size, `record` \
             or `gap`, and for a record its class, name;cycle and date. Names are escaped as rootaudit does it. A \
             last line tells how far the list of a file came: to its end, or to a refusal, whose number and place it \
             gives.",
        ),
        Block::Text(
            "It lists and does NOT audit: its success is no pass. Only the pieces are read, not the file header, the \
             directories, the keys lists or the free list. What a damaged file still has can be seen by it.",
        ),
    ],
    options: &[
        Switch {
            flags: &["--json"],
            argument: Argument::None,
            help: "an object of JSON a line: for a piece `file`, `place`, `size` and `part` (`record` or `gap`), and \
                   for a record `class`, `name`, `cycle` and `date`; at the end of each file `file`, `verdict`, which \
                   is always `no verdict`, `pieces`, `number` and `place` of a refusal or null, and `words`. In names \
                   each byte that is not printable ASCII is `\\xNN` and a backslash is doubled, before JSON's own \
                   escapes",
        },
        HELP,
        Switch {
            flags: &["--version"],
            argument: Argument::None,
            help: "print the version, the requests that change verdicts and are in, the commit and the toolchain. It \
                   stands alone",
        },
        END,
    ],
    statuses: &[
        (0, "every file was walked to its end, which is no pass"),
        (1, "a piece was refused"),
        (
            2,
            "a file could not be read or is shorter than 100 bytes, the output did not reach its end, or the command \
             line is wrong",
        ),
    ],
    sections: &[
        Section {
            title: "Examples",
            blocks: &[
                Block::Text("What a file holds:"),
                Block::Lines("rootkeys -- run12.root"),
                Block::Text("The places of all trees, by jq(1):"),
                Block::Lines(
                    "rootkeys --json -- *.root | jq -r 'select(.class == \"TTree\") | \"\\(.file) \\(.place)\"'",
                ),
            ],
        },
        Section {
            title: "See also",
            blocks: &[Block::Text("rootaudit(1), which audits and is the one to clear disks by; rootmap(3).")],
        },
    ],
};
