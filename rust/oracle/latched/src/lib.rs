//! aerodb's B-tree with its own row.rs over the frames and latches of its pager: the variant to time.

#[path = "../../shared/oracle.rs"]
pub mod oracle;
#[path = "../../shared/pager_latched.rs"]
pub mod pager;
#[rustfmt::skip]
#[allow(unused, clippy::all)]
#[path = "../../upstream/src/storage/row.rs"]
pub mod row;
#[path = "../../shared/sql.rs"]
pub mod sql;
#[path = "../../shared/storage.rs"]
pub mod storage;
#[path = "../../shared/transaction.rs"]
pub mod transaction;
