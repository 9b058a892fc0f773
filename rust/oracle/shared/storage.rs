//! aerodb's storage files, beside the pager and the rows that a variant brings.
//! Its own text stays as it is: neither reformatted nor judged by lints.

#[rustfmt::skip]
#[allow(unused, clippy::all)]
#[path = "../upstream/src/storage/btree.rs"]
pub mod btree;
#[rustfmt::skip]
#[path = "../upstream/src/storage/page.rs"]
pub mod page;
#[rustfmt::skip]
#[path = "../upstream/src/storage/vacuum.rs"]
pub mod vacuum;

pub use crate::{pager, row};
