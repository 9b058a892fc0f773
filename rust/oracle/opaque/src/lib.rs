//! aerodb's B-tree over a pool in memory, where data is any byte string.

#[path = "../../shared/oracle.rs"]
pub mod oracle;
#[path = "../../shared/pager.rs"]
pub mod pager;
#[allow(clippy::all)]
pub mod row;
#[path = "../../shared/storage.rs"]
pub mod storage;
#[path = "../../shared/transaction.rs"]
pub mod transaction;
