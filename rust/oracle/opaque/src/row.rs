//! aerodb's row.rs with `RowData` replaced: the data is the bytes themselves.
//! The rest (constants, `Row`, its payload reader and writer) is the
//! original's text, cut out by build.rs.
use crate::transaction::TransactionId;
use std::io;

#[derive(Debug, Clone, PartialEq)]
pub struct RowData(pub Vec<u8>);

impl RowData {
    pub fn serialize(&self) -> Vec<u8> {
        self.0.clone()
    }

    pub fn deserialize(bytes: &[u8]) -> io::Result<RowData> {
        Ok(RowData(bytes.to_vec()))
    }
}

include!(concat!(env!("OUT_DIR"), "/payload.rs"));
