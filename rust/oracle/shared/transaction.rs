//! Stand-in for aerodb's transaction/mod.rs: the names that its other files import.
//! Its own text stays as it is: neither reformatted nor judged by lints.

#[rustfmt::skip]
#[path = "../upstream/src/transaction/mvcc.rs"]
pub mod mvcc;
#[rustfmt::skip]
#[allow(clippy::all)]
#[path = "../upstream/src/transaction/state.rs"]
pub mod state;
#[rustfmt::skip]
#[path = "../upstream/src/transaction/tx_table.rs"]
pub mod tx_table;

pub use mvcc::is_visible;
pub use state::{Snapshot, TransactionId};
pub use tx_table::{TransactionStatus, TransactionTable};
