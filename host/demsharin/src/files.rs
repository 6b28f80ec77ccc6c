// The calls on table files: what sites send each other.
use crate::bytes::{self, HEAD_BYTES, ROW_BYTES, ROWS_BYTES, WRITTEN_BYTES};
use crate::calls::{Table, answered};
use crate::exports;
use crate::refusal::Refusal;

/// What is left of a damaged file.
#[derive(Debug, Clone, PartialEq, Eq)]
pub struct Salvaged {
    /// The whole, admitted rows before the first fault: a table of their own.
    pub table: Table,
    /// How many they are.
    pub kept: usize,
    /// Where in the file the first row not kept begins, or where the rows end; 0 if their number can't be read.
    pub byte: usize,
}

impl Table {
    /// The table's file, at most 15,890 bytes. One table has one file; the refusals are those of the table.
    pub fn to_file(&self) -> Result<Vec<u8>, Refusal> {
        let out = answered::<WRITTEN_BYTES>(|out| exports::write_table(self.bytes(), out))?;
        let (length, _) = bytes::read_head(&out);
        Ok(out[HEAD_BYTES..HEAD_BYTES + length].to_vec())
    }

    /// The table of a file. FORMAT for a file that breaks the rules of its form or has over 128 rows, then what a table
    /// of these rows is refused for.
    pub fn from_file(file: &[u8]) -> Result<Table, Refusal> {
        let out = answered::<ROWS_BYTES>(|out| exports::read_table(file, out))?;
        let (rows, _) = bytes::read_head(&out);
        Ok(Table::of_bytes(&out[HEAD_BYTES..HEAD_BYTES + rows * ROW_BYTES]))
    }
}

/// What can be kept of any bytes as a file: the rows before the first that isn't whole or isn't admitted, at most 128.
pub fn salvage(file: &[u8]) -> Salvaged {
    let out = answered::<ROWS_BYTES>(|out| exports::salvage_table(file, out)).expect("salvage refuses nothing");
    let (kept, byte) = bytes::read_head(&out);
    Salvaged { table: Table::of_bytes(&out[HEAD_BYTES..HEAD_BYTES + kept * ROW_BYTES]), kept, byte }
}
