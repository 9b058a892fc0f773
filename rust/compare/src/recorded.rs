//! Pools with their answers, worked out by hand from the rules (document 01).
//! Each case says why. Nothing here is computed by the oracle or by `rule`.
//!
//! A row `v(key, creator)` is live, unpointed, and has two bytes of data, so its
//! cell takes 21 bytes: a leaf's cells begin at 12, 33, 54, and so on, and the
//! data of one 19 bytes later. Plain lookup (`Find`) sees every row here.
use crate::call::{Call, Given, Lists, Outcome};
use crate::pages::{Page, inner, leaf};
use crate::tally::Tally;
use Call::*;
use Expect::*;
use erbulonge::State;
use std::time::{Duration, Instant};
use wire::{PAGE, Snap, Version, records};

enum Expect {
    Yes,
    No,
    Refused(u8),
    /// A row, the page it is on and the offset of its cell.
    Found(Version, u64, u64),
    Rows(Vec<Version>),
    Pages(Vec<u32>),
    Bytes(Vec<u8>),
}

struct Case {
    pool: Vec<Page>,
    state: State,
    lists: Lists,
    room: usize,
    calls: Vec<(Call, Expect)>,
}

const BAD_POOL: Expect = Refused(1);
const BAD_TREE: Expect = Refused(2);
const BAD_SNAPSHOT: Expect = Refused(3);
const BAD_STATUSES: Expect = Refused(4);
const ABSENT: Expect = Refused(8);
const SHORT: Expect = Refused(12);

impl Expect {
    fn outcome(&self, room: usize) -> Outcome {
        let mut o = Outcome::start(room);
        let bytes = match self {
            Yes | No => {
                o.words[0] = matches!(self, Yes) as u64;
                return o;
            }
            Refused(number) => {
                o.number = *number;
                return o;
            }
            Found(v, page, at) => {
                let start = page * PAGE as u64 + at + 19;
                o.words = [v.creator, 0, 0, 0, 0, 0, start, v.data.len() as u64];
                return o;
            }
            Rows(rows) => records::of_versions(rows),
            Pages(pages) => records::of_pages(pages),
            Bytes(bytes) => bytes.clone(),
        };
        o.words[0] = bytes.len() as u64;
        o.out[..bytes.len()].copy_from_slice(&bytes);
        o
    }
}

/// All pages are in use, there are no statuses, and the output has 300 bytes.
fn tree(root: u32, pool: impl Into<Vec<Page>>) -> Case {
    let pool = pool.into();
    let used = pool.len() as u32;
    Case {
        pool,
        state: State { root, used },
        lists: Lists::default(),
        room: 300,
        calls: Vec::new(),
    }
}

impl Case {
    fn ask(mut self, call: Call, expect: Expect) -> Self {
        self.calls.push((call, expect));
        self
    }

    fn used(mut self, used: u32) -> Self {
        self.state.used = used;
        self
    }

    fn statuses(mut self, statuses: &[(u64, u8)]) -> Self {
        self.lists = Lists::of(statuses, None);
        self
    }

    fn room(mut self, room: usize) -> Self {
        self.room = room;
        self
    }

    /// Another byte in a page.
    fn byte(mut self, page: usize, at: usize, byte: u8) -> Self {
        self.pool[page][at] = byte;
        self
    }
}

fn v(key: i32, creator: u64) -> Version {
    Version::live(key, creator, vec![key as u8, creator as u8])
}

fn below(xmax: u64) -> Snap {
    Snap {
        xmax,
        active: vec![],
        current: None,
    }
}

fn empty(parent: u32) -> Page {
    leaf(parent, 0, &[])
}

// Page numbers. Section 2: "a page, then its children's subtrees from the last
// child to the first, a page already listed skipped, but one that is its own
// ancestor is BadTree; no leaf cells are read".

/// Children 1, 2, 1 of root 0: first the last child, 1, then 2; the first child
/// is 1 again, which is listed, and skipped.
fn listed_twice() -> Case {
    tree(0, [inner(0, 1, &[(3, 2), (5, 1)]), empty(0), empty(0)])
        .ask(PageNumbers, Pages(vec![0, 1, 2]))
        .ask(Check, No)
}

/// Page 2 is internal and twice a child of 0: its subtree is listed once.
fn subtree_listed_twice() -> Case {
    let root = inner(0, 2, &[(3, 1), (5, 2)]);
    let two = inner(0, 3, &[(4, 4)]);
    tree(0, [root, empty(0), two, empty(2), empty(2)])
        .ask(PageNumbers, Pages(vec![0, 2, 4, 3, 1]))
        .ask(Check, No)
}

/// Page 2 names the root, its own ancestor: BadTree, although page 0 is listed
/// already. Key 1 goes left at 3, to leaf 1, and on to leaf 3; key 4 goes to page
/// 2 and left at 5, to leaf 3: neither meets that child. Key 6 goes right in page
/// 2, to page 0, and to page 2 again: an internal page on the fourth level.
fn own_ancestor() -> Case {
    let (one, three) = (leaf(0, 3, &[v(1, 1)]), leaf(2, 0, &[v(4, 1)]));
    tree(
        0,
        [inner(0, 1, &[(3, 2)]), one, inner(0, 3, &[(5, 0)]), three],
    )
    .ask(PageNumbers, BAD_TREE)
    .ask(Find(1), Found(v(1, 1), 1, 12))
    .ask(Find(4), Found(v(4, 1), 3, 12))
    .ask(Find(6), BAD_TREE)
    .ask(Check, No)
}

/// The leaf says it has 9 cells and holds none, and links to no page: no leaf
/// cells are read.
fn cells_not_read() -> Case {
    tree(0, [leaf(0, 77, &[])])
        .byte(0, 6, 9)
        .ask(PageNumbers, Pages(vec![0]))
        .ask(All, BAD_TREE)
}

// Levels. Section 3: "At most 4 levels".

/// Pages 0, 1, 2 are internal, one below the other; leaf 4 is a child of each.
fn line(last: Page) -> Case {
    let (root, one, two) = (
        inner(0, 1, &[(9, 4)]),
        inner(0, 2, &[(9, 4)]),
        inner(1, 3, &[(9, 4)]),
    );
    tree(0, [root, one, two, last, empty(0)])
}

/// Leaf 3 is on the fourth level, and is read. Leaf 4 is met on three levels, so
/// check says no; page numbers lists it when it is first met, as the root's last.
fn four_levels() -> Case {
    line(leaf(2, 0, &[v(1, 1)]))
        .ask(Find(1), Found(v(1, 1), 3, 12))
        .ask(All, Rows(vec![v(1, 1)]))
        .ask(PageNumbers, Pages(vec![0, 4, 1, 2, 3]))
        .ask(Check, No)
}

/// An internal page on the fourth level is BadTree, though its children are
/// leaves. Key 10 goes right at the root, to leaf 4.
fn internal_on_the_fourth() -> Case {
    line(inner(2, 4, &[(9, 4)]))
        .ask(Find(1), BAD_TREE)
        .ask(All, BAD_TREE)
        .ask(Visible(below(100)), BAD_TREE)
        .ask(PageNumbers, BAD_TREE)
        .ask(Find(10), ABSENT)
        .ask(Check, No)
}

/// Page 4 is internal, fit for level 2, and met again on level 4, below 0, 1, 2:
/// there it is listed already, and skipped before it is judged. A search that
/// comes to it there, by keys up to 9, judges it.
fn skipped_on_the_fourth() -> Case {
    let (one, two) = (inner(0, 2, &[(9, 3)]), inner(1, 4, &[(9, 3)]));
    let (four, five) = (inner(0, 5, &[(9, 6)]), leaf(4, 6, &[]));
    tree(
        0,
        [
            inner(0, 1, &[(9, 4)]),
            one,
            two,
            empty(1),
            four,
            five,
            empty(4),
        ],
    )
    .ask(PageNumbers, Pages(vec![0, 4, 6, 5, 1, 3, 2]))
    .ask(Find(1), BAD_TREE)
}

// Chains. Section 3: "no page met twice on a path or chain". Section 5: search
// follows the chain "past empty leaves, until a leaf holds a larger key or the
// chain ends".

/// Leaves 1 and 2 link to each other. Key 3 stops in leaf 1, which holds 5; key 5
/// goes left at 5 to leaf 1 and on to 2, which holds 7; key 7 goes to leaf 2, on
/// to 1, and meets 2 again.
fn met_twice_on_a_chain() -> Case {
    let one = leaf(0, 2, &[v(3, 1), v(5, 1)]);
    let two = leaf(0, 1, &[v(5, 2), v(7, 1)]);
    tree(0, [inner(0, 1, &[(5, 2)]), one, two])
        .ask(Find(3), Found(v(3, 1), 1, 12))
        .ask(Find(5), Found(v(5, 2), 2, 12))
        .ask(Find(7), BAD_TREE)
        .ask(Versions(7), BAD_TREE)
        .ask(All, BAD_TREE)
        .ask(Visible(below(100)), BAD_TREE)
        .ask(PageNumbers, Pages(vec![0, 2, 1]))
        .ask(Check, No)
}

/// The next link of the leaf in which a search stops is not read: 77 is no page,
/// but key 5 stops at 9. Key 9 meets no larger key and goes on.
fn next_link_not_read() -> Case {
    tree(0, [leaf(0, 77, &[v(5, 1), v(9, 1)])])
        .ask(Find(5), Found(v(5, 1), 0, 12))
        .ask(Versions(5), Rows(vec![v(5, 1)]))
        .ask(Find(4), ABSENT)
        .ask(Find(9), BAD_TREE)
        .ask(Conflict(9, 1, below(100)), BAD_TREE)
        .ask(All, BAD_TREE)
        .ask(Check, No)
}

/// Key 5 goes left at 5 to leaf 1, whose keys are smaller, past the empty leaf 2,
/// to leaf 3. The tree is well-formed.
fn empty_leaf_passed() -> Case {
    let (one, three) = (leaf(0, 2, &[v(4, 1)]), leaf(0, 0, &[v(5, 1)]));
    tree(
        0,
        [inner(0, 1, &[(5, 2), (5, 3)]), one, leaf(0, 3, &[]), three],
    )
    .ask(Find(5), Found(v(5, 1), 3, 12))
    .ask(All, Rows(vec![v(4, 1), v(5, 1)]))
    .ask(Visible(below(100)), Rows(vec![v(4, 1), v(5, 1)]))
    .ask(Check, Yes)
}

/// The first leaf links to the root, an internal page: a chain is of leaves.
fn chain_to_an_internal_page() -> Case {
    tree(
        1,
        [leaf(1, 1, &[v(3, 1)]), inner(0, 0, &[(5, 2)]), empty(1)],
    )
    .ask(Find(3), BAD_TREE)
    .ask(Find(2), ABSENT)
}

/// "Next-leaf links run left to right and end with 0, so page 0 is no leaf but the
/// first": leaf 2's next link, 0, ends the chain before leaf 0. Key 6 goes right
/// at 5 and is found there; key 5 goes left and is not.
fn page_0_as_a_later_leaf() -> Case {
    let zero = leaf(1, 0, &[v(5, 1), v(6, 1)]);
    tree(1, [zero, inner(0, 2, &[(5, 0)]), leaf(1, 0, &[v(3, 1)])])
        .ask(Find(6), Found(v(6, 1), 0, 33))
        .ask(Find(5), ABSENT)
        .ask(All, Rows(vec![v(3, 1)]))
        .ask(PageNumbers, Pages(vec![1, 0, 2]))
        .ask(Check, No)
}

/// As the first leaf page 0 is in order.
fn page_0_as_the_first_leaf() -> Case {
    let (zero, two) = (leaf(1, 2, &[v(3, 1)]), leaf(1, 0, &[v(5, 1)]));
    tree(1, [zero, inner(0, 0, &[(5, 2)]), two])
        .ask(All, Rows(vec![v(3, 1), v(5, 1)]))
        .ask(Find(5), Found(v(5, 1), 2, 12))
        .ask(Check, Yes)
}

// Leaves. Section 3: "leaf cells readable and in order" of every leaf that is
// read, "non-decreasing by key, then creator; from one leaf to the next a key's
// creators may fall again".

/// The format byte of the third cell is not V. The leaf is judged whole, although
/// the search for 5 has seen 9 before.
fn leaf_judged_whole() -> Case {
    tree(0, [leaf(0, 0, &[v(5, 1), v(9, 1), v(11, 1)])])
        .byte(0, 54 + 8, 0x80)
        .ask(Find(5), BAD_TREE)
        .ask(Versions(5), BAD_TREE)
        .ask(Conflict(5, 1, below(100)), BAD_TREE)
        .ask(Check, No)
}

/// Keys fall after the row that is sought.
fn keys_fall() -> Case {
    tree(0, [leaf(0, 0, &[v(5, 1), v(9, 1), v(8, 1)])]).ask(Find(5), BAD_TREE)
}

/// Creators of one key fall.
fn creators_fall() -> Case {
    tree(0, [leaf(0, 0, &[v(5, 1), v(9, 2), v(9, 1)])]).ask(Find(5), BAD_TREE)
}

/// Key -1 is FF FF FF FF and sorts before 0.
fn negative_keys() -> Case {
    tree(0, [leaf(0, 0, &[v(-1, 1), v(0, 1)])])
        .ask(Find(-1), Found(v(-1, 1), 0, 12))
        .ask(Check, Yes)
}

/// From leaf 1 to leaf 2 the creators of key 5 fall from 3 to 1. Lookup takes the
/// largest, of equals the last in chain order.
fn creators_fall_between_leaves() -> Case {
    let one = leaf(0, 2, &[v(5, 2), v(5, 3)]);
    let two = leaf(0, 0, &[v(5, 1), v(5, 3)]);
    tree(0, [inner(0, 1, &[(5, 2)]), one, two])
        .ask(Find(5), Found(v(5, 3), 2, 33))
        .ask(Versions(5), Rows(vec![v(5, 2), v(5, 3), v(5, 1), v(5, 3)]))
        .ask(Check, Yes)
}

/// Data of 4051 bytes is readable (P2).
fn longest_data() -> Case {
    let row = Version::live(5, 1, vec![3; 4051]);
    tree(0, [leaf(0, 0, std::slice::from_ref(&row))]).ask(Find(5), Found(row, 0, 12))
}

/// Data of 4052 bytes is not, though it fits the page.
fn data_too_long() -> Case {
    tree(0, [leaf(0, 0, &[Version::live(5, 1, vec![3; 4052])])]).ask(Find(5), BAD_TREE)
}

// Section 5: "Search goes left on key ≤ separator".

/// Key 5 stands on both sides of the separator 5. A snapshot with xmax 2 does not
/// see creator 2: it finds the older row, left of the separator, and its conflict
/// test the newer one.
fn equal_keys_left_of_a_separator() -> Case {
    let one = leaf(0, 2, &[v(3, 1), v(5, 1)]);
    let two = leaf(0, 0, &[v(5, 2), v(7, 1)]);
    tree(0, [inner(0, 1, &[(5, 2)]), one, two])
        .ask(Versions(5), Rows(vec![v(5, 1), v(5, 2)]))
        .ask(Find(5), Found(v(5, 2), 2, 12))
        .ask(Lookup(5, below(2)), Found(v(5, 1), 1, 33))
        .ask(Conflict(5, 1, below(2)), Yes)
        .ask(Conflict(5, 1, below(100)), No)
        .ask(Check, Yes)
}

/// The same with creator 2 aborted.
fn equal_keys_the_right_one_aborted() -> Case {
    let same = equal_keys_left_of_a_separator().pool;
    tree(0, same)
        .statuses(&[(2, 3)])
        .ask(Find(5), Found(v(5, 1), 1, 33))
}

/// Key 4 stands right of the separator 5: check says no, and no other call judges
/// bounds. Key 4 goes left at 5 and on to leaf 2.
fn key_out_of_bounds() -> Case {
    let (one, two) = (leaf(0, 2, &[v(3, 1)]), leaf(0, 0, &[v(4, 1)]));
    tree(0, [inner(0, 1, &[(5, 2)]), one, two])
        .ask(Find(4), Found(v(4, 1), 2, 12))
        .ask(All, Rows(vec![v(3, 1), v(4, 1)]))
        .ask(Check, No)
}

// Section 6: "Order: 1, 3, 4, 5, 2, 6 or 8, 7, 9, 11, 10, 12".

fn not_rising() -> Snap {
    Snap {
        active: vec![4, 4],
        ..below(100)
    }
}

/// A root of type 2, no room, and a status list with a state 4.
fn broken() -> Case {
    tree(0, [[2; PAGE]]).statuses(&[(3, 4)]).room(0)
}

/// More pages in use than the pool has: BadPool before all else.
fn pool_first() -> Case {
    broken()
        .used(2)
        .ask(Lookup(5, not_rising()), BAD_POOL)
        .ask(Find(5), BAD_POOL)
        .ask(Visible(not_rising()), BAD_POOL)
        .ask(Conflict(5, 1, not_rising()), BAD_POOL)
        .ask(All, BAD_POOL)
        .ask(Check, BAD_POOL)
}

/// Then the snapshot, then the statuses, of the calls that take them.
fn lists_next() -> Case {
    broken()
        .ask(Lookup(5, not_rising()), BAD_SNAPSHOT)
        .ask(Lookup(5, below(100)), BAD_STATUSES)
        .ask(Find(5), BAD_STATUSES)
        .ask(Visible(not_rising()), BAD_SNAPSHOT)
        .ask(Visible(below(100)), BAD_STATUSES)
        .ask(Conflict(5, 1, not_rising()), BAD_SNAPSHOT)
        .ask(Conflict(5, 1, below(100)), BAD_TREE)
        .ask(Versions(5), BAD_TREE)
        .ask(PageNumbers, BAD_TREE)
        .ask(Check, No)
}

/// The second leaf is damaged: BadTree, though the first row alone is longer than
/// the output; and no Absent for key 4, which goes on to it. Page numbers reads no
/// cells, and is Short.
fn tree_before_absent_and_short() -> Case {
    tree(
        0,
        [inner(0, 1, &[(5, 2)]), leaf(0, 2, &[v(3, 1)]), [1; PAGE]],
    )
    .room(1)
    .ask(All, BAD_TREE)
    .ask(Visible(below(100)), BAD_TREE)
    .ask(Find(4), BAD_TREE)
    .ask(Find(2), ABSENT)
    .ask(PageNumbers, SHORT)
}

/// No page in use is no BadPool. The root is not in use: check says no, the others
/// BadTree.
fn root_not_in_use() -> Case {
    tree(0, [empty(0)])
        .used(0)
        .ask(Find(1), BAD_TREE)
        .ask(PageNumbers, BAD_TREE)
        .ask(Check, No)
}

// Listings: sections 2, 4 and 6.

/// Section 2's own example, key 7, creator 5, live, data 00 00, with so much room.
fn example(room: usize) -> Case {
    tree(0, [leaf(0, 0, &[Version::live(7, 5, vec![0, 0])])]).room(room)
}

/// Its record has 27 bytes; 26 are Short and stay as they were.
fn short() -> Case {
    example(26)
        .ask(All, SHORT)
        .ask(Versions(7), SHORT)
        .ask(Visible(below(100)), SHORT)
}

/// 28 bytes do, and the last one stays as it was.
fn record() -> Case {
    let record = [
        &[0x17, 0, 0, 0, 1, 0][..],
        &[7, 0, 0, 0, 0x0D, 0, 0, 0, 0x81],
        &[5, 0, 0, 0, 0, 0, 0, 0],
        &[0, 0, 0, 0],
    ];
    let bytes = || Bytes(record.concat());
    example(28)
        .ask(All, bytes())
        .ask(Versions(7), bytes())
        .ask(Visible(below(100)), bytes())
}

/// Nothing to list is Done without room.
fn nothing_to_list() -> Case {
    example(0)
        .ask(Versions(8), Rows(vec![]))
        .ask(Visible(below(5)), Rows(vec![]))
        .ask(PageNumbers, SHORT)
}

/// Keys fall from leaf 1 to leaf 2 (no separator allows it: check says no). The
/// visible listing is by rising keys, of key 5 the larger creator. Versions and
/// all versions are in chain order, and key 5 stops in leaf 1, at 9.
fn keys_fall_between_leaves() -> Case {
    let one = leaf(0, 2, &[v(5, 1), v(9, 1)]);
    let two = leaf(0, 0, &[v(3, 1), v(5, 2)]);
    tree(0, [inner(0, 1, &[(9, 2)]), one, two])
        .ask(Visible(below(100)), Rows(vec![v(3, 1), v(5, 2), v(9, 1)]))
        .ask(All, Rows(vec![v(5, 1), v(9, 1), v(3, 1), v(5, 2)]))
        .ask(Versions(5), Rows(vec![v(5, 1)]))
        .ask(Find(5), Found(v(5, 1), 1, 12))
        .ask(Check, No)
}

/// P9, two visible rows of one creator: lookup takes the last, the visible listing
/// the first.
fn ties() -> Case {
    let row = |byte| Version::live(7, 5, vec![byte, byte]);
    tree(0, [leaf(0, 0, &[row(1), row(2)])])
        .ask(Find(7), Found(row(2), 0, 33))
        .ask(Visible(below(100)), Rows(vec![row(1)]))
}

// Internal pages, parent links, types: section 3.

/// Leaves 1 and 2 below the given root.
fn under(root: Page) -> Case {
    tree(0, [root, leaf(0, 2, &[v(3, 1)]), leaf(0, 0, &[v(6, 1)])])
}

/// All read well: 3 goes left at 5.
fn reads(case: Case) -> Case {
    case.ask(Find(3), Found(v(3, 1), 1, 12))
        .ask(PageNumbers, Pages(vec![0, 2, 1]))
}

fn reads_not(case: Case) -> Case {
    case.ask(Find(3), BAD_TREE).ask(PageNumbers, BAD_TREE)
}

/// 510 keys are allowed (P3). Leaf 2 is named 510 times, so check says no.
fn most_keys() -> Case {
    reads(under(inner(0, 1, &[(5, 2); 510]))).ask(Check, No)
}

/// A count of 511 is not, nor is one of 0.
fn too_many_keys() -> Case {
    reads_not(under(inner(0, 1, &[(5, 2); 510])).byte(0, 6, 0xFF))
}

fn no_keys() -> Case {
    reads_not(under(inner(0, 1, &[(5, 2)])).byte(0, 6, 0))
}

/// Separators that fall: judged whole, though 3 goes left at the first.
fn separators_fall() -> Case {
    reads_not(under(inner(0, 1, &[(5, 2), (4, 2)])))
}

/// A child at the pages in use is read by page numbers, and by a search for 8.
fn child_not_in_use() -> Case {
    under(inner(0, 1, &[(5, 2), (7, 3)]))
        .ask(Find(3), Found(v(3, 1), 1, 12))
        .ask(PageNumbers, BAD_TREE)
        .ask(Find(8), BAD_TREE)
}

fn in_order() -> Case {
    reads(under(inner(0, 1, &[(5, 2)]))).ask(Check, Yes)
}

/// Of the reading calls only check reads parent links: that of leaf 2, not 0, and
/// the root's, not 0.
fn parent_link() -> Case {
    reads(under(inner(0, 1, &[(5, 2)])).byte(2, 2, 1)).ask(Check, No)
}

fn parent_link_of_the_root() -> Case {
    reads(under(inner(1, 1, &[(5, 2)]))).ask(Check, No)
}

/// Leaf 2 has type 2. A search for 3 comes to it, one for 2 stops at 3.
fn type_2() -> Case {
    reads_not(under(inner(0, 1, &[(5, 2)])).byte(2, 0, 2)).ask(Find(2), ABSENT)
}

/// Four pages; the internal ones name one child 511 times.
fn repeated(last: Page) -> Case {
    let page = |parent, child| inner(parent, child, &[(5, child); 510]);
    tree(0, [page(0, 1), page(0, 2), page(1, 3), last])
}

/// Check must not go down every way. Page numbers skips what is listed. Search for
/// any key ends in leaf 3.
fn repeated_children() -> Case {
    repeated(leaf(2, 0, &[v(5, 1)]))
        .ask(Check, No)
        .ask(PageNumbers, Pages(vec![0, 1, 2, 3]))
        .ask(Find(5), Found(v(5, 1), 3, 12))
        .ask(Find(6), ABSENT)
        .ask(All, Rows(vec![v(5, 1)]))
}

/// The fourth is internal too and names itself: there is no leaf at all.
fn repeated_without_a_leaf() -> Case {
    repeated(inner(2, 3, &[(5, 3); 510]))
        .ask(Check, No)
        .ask(PageNumbers, BAD_TREE)
        .ask(Find(5), BAD_TREE)
        .ask(All, BAD_TREE)
        .ask(Visible(below(100)), BAD_TREE)
}

#[rustfmt::skip]
const CASES: [fn() -> Case; 43] = [
    listed_twice, subtree_listed_twice, own_ancestor, cells_not_read,
    four_levels, internal_on_the_fourth, skipped_on_the_fourth,
    met_twice_on_a_chain, next_link_not_read, empty_leaf_passed, chain_to_an_internal_page,
    page_0_as_a_later_leaf, page_0_as_the_first_leaf,
    leaf_judged_whole, keys_fall, creators_fall, negative_keys, creators_fall_between_leaves,
    longest_data, data_too_long,
    equal_keys_left_of_a_separator, equal_keys_the_right_one_aborted, key_out_of_bounds,
    pool_first, lists_next, tree_before_absent_and_short, root_not_in_use,
    short, record, nothing_to_list, keys_fall_between_leaves, ties,
    most_keys, too_many_keys, no_keys, separators_fall, child_not_in_use,
    in_order, parent_link, parent_link_of_the_root, type_2,
    repeated_children, repeated_without_a_leaf,
];

/// No call on these small pools takes longer. Going down all 511 * 511 * 511 ways
/// of the last two would.
const AT_ONCE: Duration = Duration::from_millis(250);

fn compare(tally: &mut Tally, case: &Case) {
    tally.pool();
    let pool = case.pool.concat();
    let given = Given {
        pool: &pool,
        state: case.state,
        lists: &case.lists,
        room: case.room,
    };
    for (call, expect) in &case.calls {
        let start = Instant::now();
        tally.outcome(&given, call, &expect.outcome(case.room));
        let took = start.elapsed();
        tally.judge(took < AT_ONCE, || format!("{call:?} took {took:?}"));
    }
}

pub fn run() -> Tally {
    let mut tally = Tally::new("recorded by hand");
    for case in CASES {
        compare(&mut tally, &case());
    }
    tally
}
