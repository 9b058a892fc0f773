//! The recorded pages of aerodb's leaves and internal pages. The program
//! crates/test_histories makes the same calls of the port.
mod data;
mod histories;
mod pieces;
mod recorder;
mod tally;

use recorder::Recorder;

const ABOUT: &str = "\
# Pages as aerodb's own code stored them, after each of some calls. Made in the folder rust with
#   cargo run --offline --release -p pages > ../crates/test_histories/stdin
#
# Numbers are hexadecimal, a key is its 32 bits, and - is an absent stamp or pointer. The status list is 3 aborted,
# 4 committed, 6 active, 8 aborted, 9 committed; a snapshot's active list is 7, and it has no current transaction.
# LEAF is the page whose cells the call is about. Data of LEN bytes is made from SEED: x becomes
# 25173 x + 13849 modulo 65536 at each byte, which is x / 256.
#
# n ROOT                                               a new pool of zeros, and page ROOT a new tree in it
# i LEAF KEY CREATOR STAMP POINTER LEN SEED            insert_version
# s LEAF KEY XMAX DELETER                              mark_deleted_visible
# r LEAF KEY                                           remove_all_versions
# v LEAF BOUND                                         vacuum_deleted_versions; a line for each leaf
# p PAGE and pieces                                    the page after the case: c FROM N, N bytes of the recorded pool
#                                                      as it stands; g LEN SEED, data; x N BYTES; then zeros
# = COUNT                                              end of a case; versions that it dropped
";

pub struct Recorded {
    /// The list.
    pub stdin: String,
    /// What the program is to print.
    pub stdout: String,
}

/// The list and the counts, the same at every run.
pub fn recorded() -> Recorded {
    let mut r = Recorder::new();
    histories::all(&mut r);
    Recorded {
        stdin: format!("{ABOUT}{}", r.list),
        stdout: r.tally.text(),
    }
}
