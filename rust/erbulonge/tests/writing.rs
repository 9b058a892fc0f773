//! The writing calls by the numbers of the rules (document 01, sections 5, 6 and 8).
use erbulonge::Refusal::*;
use erbulonge::{Answer, NewVersion, Refusal, Snapshot, State, Statuses};

const PAGE: usize = 4096;
const NONE: Statuses = Statuses {
    ids: &[],
    states: &[],
};

/// A pool and the last of its trees, made by so many creates.
struct Tree {
    pool: Vec<u8>,
    state: State,
}

fn live(creator: u64, data: &[u8]) -> NewVersion<'_> {
    NewVersion {
        creator,
        deleter: None,
        pointer: None,
        data,
    }
}

fn snapshot(current: Option<u64>) -> Snapshot<'static> {
    Snapshot {
        xmax: 20,
        active: &[12],
        current,
    }
}

impl Tree {
    fn new(creates: u32, pages: usize) -> Self {
        let mut tree = Tree {
            pool: vec![0; pages * PAGE],
            state: State { root: 0, used: 0 },
        };
        for _ in 0..creates {
            tree.done(|st, pool| st.create(pool));
        }
        tree
    }

    /// A call that must be Done, on the state that it then gives.
    fn done(&mut self, call: impl FnOnce(State, &mut [u8]) -> Answer<State>) {
        self.state = call(self.state, &mut self.pool).unwrap();
        assert_eq!(self.state.check(&self.pool), Ok(true));
    }

    /// A call that must be refused, and then change no byte.
    fn refused<T: std::fmt::Debug + PartialEq>(
        &mut self,
        by: Refusal,
        call: impl FnOnce(State, &mut [u8]) -> Answer<T>,
    ) {
        let before = self.pool.clone();
        assert_eq!(call(self.state, &mut self.pool), Err(by));
        assert!(self.pool == before, "{by:?} changed the pool");
    }

    /// A live row whose cell takes 19 bytes more than its data.
    fn row(&mut self, key: i32, data: usize) {
        let data = vec![3; data];
        self.done(|st, pool| st.insert_version(pool, key, &live(1, &data)));
    }

    fn page(&self, n: u32) -> &[u8] {
        &self.pool[n as usize * PAGE..][..PAGE]
    }

    fn number(&self, page: u32, at: usize) -> u32 {
        u32::from_le_bytes(self.page(page)[at..at + 4].try_into().unwrap())
    }

    fn count(&self, page: u32) -> u8 {
        self.page(page)[6]
    }

    /// Bytes that a leaf's cells take.
    fn bytes(&self, page: u32) -> usize {
        (0..self.count(page)).fold(0, |at, _| at + 8 + self.number(page, 12 + at + 4) as usize)
    }

    /// The stamp of a row of creator 1, which sees its own rows.
    fn deleter(&self, key: i32) -> Option<u64> {
        let own = Snapshot {
            xmax: 0,
            active: &[],
            current: Some(1),
        };
        let found = self
            .state
            .find_visible(&self.pool, key, &own, &NONE)
            .unwrap();
        found.deleter
    }
}

#[test]
fn insert_and_find() {
    let mut tree = Tree::new(1, 4);
    tree.done(|st, pool| st.insert(pool, -1, Some(5), &NONE, b"before"));
    tree.done(|st, pool| st.insert(pool, 0, None, &NONE, b"after"));
    tree.refused(Duplicate, |st, pool| {
        st.insert(pool, 0, Some(5), &NONE, b"")
    });
    let (st, pool) = (tree.state, &tree.pool);
    let [before, after] = [-1, 0].map(|key| st.find(pool, key, None, &NONE).unwrap());
    assert_eq!((before.creator, before.data(pool)), (5, &b"before"[..]));
    assert_eq!((after.creator, after.data(pool)), (0, &b"after"[..]));
}

#[test]
fn insert_version_as_it_is() {
    let mut tree = Tree::new(1, 4);
    let version = NewVersion {
        creator: 5,
        deleter: Some(u64::MAX),
        pointer: Some((u32::MAX, 7)),
        data: b"data",
    };
    tree.done(|st, pool| st.insert_version(pool, i32::MIN, &version));
    let found = tree.state.find(&tree.pool, i32::MIN, None, &NONE).unwrap();
    assert_eq!(found.creator, version.creator);
    assert_eq!(found.deleter, version.deleter);
    assert_eq!(found.pointer, version.pointer);
    assert_eq!(found.data(&tree.pool), version.data);
}

/// P2.
#[test]
fn data_at_its_limit() {
    let mut tree = Tree::new(1, 4);
    let long = vec![7; 4052];
    tree.refused(BadData, |st, pool| st.insert(pool, 7, None, &NONE, &long));
    tree.refused(BadData, |st, pool| {
        st.insert_version(pool, 7, &live(1, &long))
    });
    tree.row(7, 4051);
}

/// P4, on root 0: "Root leaf 0, 1 in use, divides to 3 in use, root 2."
#[test]
fn full_leaf_is_cut_in_half() {
    let mut tree = Tree::new(1, 3);
    for key in 0..214 {
        tree.row(key, 0);
    }
    assert_eq!((tree.bytes(0), tree.state.used), (4066, 1));
    tree.row(214, 0);
    assert_eq!(tree.state, State { root: 2, used: 3 });
    assert_eq!([tree.count(0), tree.count(1)], [107, 108]);
    assert_eq!([tree.number(2, 12), tree.number(2, 20)], [0, 1]);
}

/// P5.
#[test]
fn no_cut_fits() {
    let mut tree = Tree::new(1, 9);
    tree.row(1, 2000 - 19);
    tree.row(3, 100 - 19);
    let middle = vec![0; 4070 - 19];
    tree.refused(Undividable, |st, pool| {
        st.insert_version(pool, 2, &live(1, &middle))
    });
    tree.refused(Undividable, |st, pool| {
        st.insert(pool, 2, None, &NONE, &middle)
    });
}

/// P6.
#[test]
fn stamp_divides() {
    let mut tree = Tree::new(1, 9);
    tree.row(1, 2042 - 19);
    tree.row(2, 2042 - 19);
    assert_eq!(tree.state.used, 1);
    tree.done(|st, pool| st.mark_deleted(pool, 1, Some(1), &NONE, 9));
    assert_eq!([tree.bytes(0), tree.bytes(1)], [2050, 2042]);
    assert_eq!(tree.deleter(1), Some(9));
}

/// P10, and three pages are needed for it.
#[test]
fn root_keeps_its_number() {
    for pages in [6, 7] {
        let mut tree = Tree::new(4, pages);
        tree.row(1, 2100);
        assert_eq!(tree.state, State { root: 3, used: 4 });
        let data = vec![0; 2100];
        if pages == 6 {
            tree.refused(NoPages, |st, pool| {
                st.insert_version(pool, 2, &live(1, &data))
            });
            continue;
        }
        tree.row(2, 2100);
        assert_eq!(tree.state, State { root: 3, used: 7 });
        let [first, second, kept] = [12, 20, 8].map(|at| tree.number(3, at));
        assert_eq!([first, second, kept], [6, 4, 4]);
    }
}

/// P7 and P8: the deleter of a row of creator 5, and what its claim by 15 gives.
#[test]
fn claims() {
    for (deleter, listed, refused) in [
        (12, false, Some(Conflict)),
        (15, false, Some(Absent)),
        (9, true, None),
        (9, false, Some(Absent)),
    ] {
        let mut tree = Tree::new(1, 4);
        let row = NewVersion {
            deleter: Some(deleter),
            ..live(5, b"")
        };
        tree.done(|st, pool| st.insert_version(pool, 7, &row));
        let active = Statuses {
            ids: &[9],
            states: &[1],
        };
        let statuses = if listed { &active } else { &NONE };
        match refused {
            Some(by) => tree.refused(by, |st, pool| {
                st.claim(pool, 7, &snapshot(Some(15)), statuses)
            }),
            None => {
                tree.done(|st, pool| st.claim(pool, 7, &snapshot(Some(15)), statuses));
                let mut record = [0; 33];
                assert_eq!(tree.state.versions_of(&tree.pool, 7, &mut record), Ok(33));
                assert_eq!(record[23..25], [1, 15]);
            }
        }
    }
}

/// Each of two transactions would get the row alone; the first to call gets it.
#[test]
fn second_claimant_is_refused() {
    let [a, b] = [(15, [12]), (12, [15])];
    for ((first, first_active), (second, second_active)) in [(a, b), (b, a)] {
        let taken = |current, active| Snapshot {
            xmax: 20,
            active,
            current: Some(current),
        };
        let mut tree = Tree::new(1, 4);
        tree.row(7, 2);
        tree.done(|st, pool| st.claim(pool, 7, &taken(first, &first_active), &NONE));
        tree.refused(Conflict, |st, pool| {
            st.claim(pool, 7, &taken(second, &second_active), &NONE)
        });
        assert_eq!(tree.deleter(7), Some(first));
    }
}

#[test]
fn stamps() {
    let mut tree = Tree::new(2, 4);
    for key in 1..=4 {
        tree.row(key, 2);
    }
    tree.done(|st, pool| st.mark_deleted_visible(pool, 1, &snapshot(None), &NONE, 30));
    tree.done(|st, pool| st.mark_deleted(pool, 2, None, &NONE, 31));
    tree.done(|st, pool| st.delete(pool, 3, Some(32), &NONE));
    tree.done(|st, pool| st.delete(pool, 4, None, &NONE));
    let stamps = [1, 2, 3, 4].map(|key| tree.deleter(key));
    assert_eq!(stamps, [Some(30), Some(31), Some(32), Some(0)]);
    tree.refused(Absent, |st, pool| {
        st.mark_deleted_visible(pool, 5, &snapshot(None), &NONE, 30)
    });
    tree.refused(Absent, |st, pool| st.mark_deleted(pool, 2, None, &NONE, 8));
    tree.refused(Absent, |st, pool| st.delete(pool, 4, Some(32), &NONE));
}

#[test]
fn remove_and_vacuum() {
    let mut tree = Tree::new(1, 4);
    let statuses = Statuses {
        ids: &[6, 7, 8],
        states: &[2, 3, 1],
    };
    let rows = [
        (1, Some(6)),
        (7, None),
        (2, Some(7)),
        (3, Some(8)),
        (4, Some(9)),
    ];
    for (creator, deleter) in rows {
        let row = NewVersion {
            deleter,
            ..live(creator, b"x")
        };
        tree.done(|st, pool| st.insert_version(pool, 5, &row));
    }
    tree.row(6, 2);
    let (st, pool) = (tree.state, &mut tree.pool);
    // 6 is committed but not below the bound; 9 is not listed.
    assert_eq!(st.vacuum_deleted_versions(pool, &statuses, 6), Ok(1));
    assert_eq!(st.vacuum_deleted_versions(pool, &statuses, 10), Ok(1));
    assert_eq!(st.vacuum_deleted_versions(pool, &statuses, 10), Ok(0));
    // Creator 2 is live again.
    assert_eq!(st.versions_of(pool, 5, &mut [0; 200]), Ok(3 * 26 + 2 * 8));
    assert_eq!(st.remove_all_versions(pool, 5), Ok(3));
    assert_eq!(st.remove_all_versions(pool, 5), Ok(0));
    assert_eq!(st.all_versions(pool, &mut [0; 99]), Ok(27));
}

/// "Order: 1, 3, 4, 5, 2": each call on all that is wrong, which is mended one by one.
#[test]
fn refusals_in_order() {
    let long = vec![0; 4052];
    let falling = Snapshot {
        active: &[4, 4],
        ..snapshot(Some(15))
    };
    let bad = Statuses {
        ids: &[3],
        states: &[4],
    };
    let mut tree = Tree::new(1, 4);
    tree.pool[0] = 2;
    tree.state.used = 5;
    tree.refused(BadPool, |st, pool| st.insert(pool, 7, None, &bad, &long));
    tree.refused(BadPool, |st, pool| {
        st.insert_version(pool, 7, &live(1, &long))
    });
    tree.refused(BadPool, |st, pool| st.claim(pool, 7, &falling, &bad));
    tree.refused(BadPool, |st, pool| st.remove_all_versions(pool, 7));
    tree.refused(BadPool, |st, pool| {
        st.vacuum_deleted_versions(pool, &bad, 7)
    });
    tree.state.used = 1;
    for current in [None, Some(0)] {
        tree.refused(BadSnapshot, |st, pool| {
            st.claim(pool, 7, &snapshot(current), &bad)
        });
    }
    tree.refused(BadSnapshot, |st, pool| st.claim(pool, 7, &falling, &bad));
    tree.refused(BadSnapshot, |st, pool| {
        st.mark_deleted_visible(pool, 7, &falling, &bad, 1)
    });
    tree.refused(BadStatuses, |st, pool| {
        st.claim(pool, 7, &snapshot(Some(15)), &bad)
    });
    tree.refused(BadStatuses, |st, pool| {
        st.mark_deleted(pool, 7, None, &bad, 1)
    });
    tree.refused(BadStatuses, |st, pool| st.delete(pool, 7, None, &bad));
    tree.refused(BadStatuses, |st, pool| {
        st.vacuum_deleted_versions(pool, &bad, 7)
    });
    tree.refused(BadStatuses, |st, pool| {
        st.insert(pool, 7, None, &bad, &long)
    });
    tree.refused(BadData, |st, pool| st.insert(pool, 7, None, &NONE, &long));
    tree.refused(BadTree, |st, pool| st.insert(pool, 7, None, &NONE, b""));
    tree.refused(BadTree, |st, pool| {
        st.insert_version(pool, 7, &live(1, b""))
    });
    tree.refused(BadTree, |st, pool| {
        st.claim(pool, 7, &snapshot(Some(15)), &NONE)
    });
    tree.refused(BadTree, |st, pool| st.remove_all_versions(pool, 7));
}
