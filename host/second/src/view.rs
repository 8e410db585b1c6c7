//! The rows of an audit as a viewer has them, each with the size of its piece.

use crate::{audit, key, Answer};

/// A record of the viewer's list.
#[derive(Clone, Copy, Debug, PartialEq, Eq)]
pub struct Row {
    pub row: audit::Row,
    pub size: u64,
}

/// The audit with this room: its answer, and a record for each row of a pass.
pub fn view(file: &[u8], room: usize) -> (Answer, Vec<Row>) {
    let (answer, rows) = audit::audit(file, room);
    let with_size = |row: audit::Row| {
        let size = key::read_piece(file, row.start).expect("a piece of a file that passes").size();
        Row { row, size }
    };
    (answer, rows.into_iter().map(with_size).collect())
}
