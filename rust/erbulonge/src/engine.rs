//! The port as a `wire::Engine`, for runs against the oracle.
use crate::{Answer, Found, NewVersion, Snapshot, State, Statuses};
use wire::{Ans, Engine, Op, PAGE, Snap, Version, page, records};

/// A pool of its own with one tree, a status list and a current transaction.
pub struct Port {
    pool: Vec<u8>,
    state: State,
    ids: Vec<u64>,
    states: Vec<u8>,
    current: Option<u64>,
    out: Vec<u8>,
}

fn snapshot(s: &Snap) -> Snapshot<'_> {
    Snapshot {
        xmax: s.xmax,
        active: &s.active,
        current: s.current,
    }
}

fn new_version(v: &Version) -> NewVersion<'_> {
    NewVersion {
        creator: v.creator,
        deleter: v.deleter,
        pointer: v.ptr,
        data: &v.data,
    }
}

impl Port {
    pub fn new(pool: Vec<u8>, state: State) -> Self {
        Port {
            // No listing is longer: its records are 6 bytes longer than cells of at least 19.
            out: vec![0; 2 * pool.len()],
            pool,
            state,
            ids: Vec::new(),
            states: Vec::new(),
            current: None,
        }
    }

    pub fn check(&self) -> Answer<bool> {
        self.state.check(&self.pool)
    }

    fn statuses(&self) -> Statuses<'_> {
        Statuses {
            ids: &self.ids,
            states: &self.states,
        }
    }

    fn version(&self, key: i32, f: Found) -> Ans {
        Ans::Found(Version {
            key,
            creator: f.creator,
            deleter: f.deleter,
            ptr: f.pointer,
            data: f.data(&self.pool).to_vec(),
        })
    }

    /// The listing that `call` writes.
    fn listing(
        &mut self,
        call: impl FnOnce(&Self, &mut [u8]) -> Answer<usize>,
        told: impl FnOnce(&[u8]) -> Ans,
    ) -> Answer<Ans> {
        let mut out = std::mem::take(&mut self.out);
        let answer = call(self, &mut out).map(|n| told(&out[..n]));
        self.out = out;
        answer
    }

    /// A call that gives a new state.
    fn change(&mut self, op: &Op) -> Answer<Ans> {
        let (st, pool, current) = (self.state, &mut self.pool[..], self.current);
        let (ids, states) = (&self.ids[..], &self.states[..]);
        let statuses = &Statuses { ids, states };
        self.state = match op {
            Op::Create => st.create(pool),
            Op::Insert(key, data) => st.insert(pool, *key, current, statuses, data),
            Op::InsertVersion(v) => st.insert_version(pool, v.key, &new_version(v)),
            Op::Stamp(key, s, deleter) => {
                st.mark_deleted_visible(pool, *key, &snapshot(s), statuses, *deleter)
            }
            Op::PlainStamp(key, deleter) => {
                st.mark_deleted(pool, *key, current, statuses, *deleter)
            }
            Op::PlainDelete(key) => st.delete(pool, *key, current, statuses),
            Op::Claim(key, s) => st.claim(pool, *key, &snapshot(s), statuses),
            _ => unreachable!("no call that gives a state: {op:?}"),
        }?;
        Ok(Ans::Done)
    }

    /// A call that gives how many versions it dropped.
    fn clean(&mut self, op: &Op) -> Answer<Ans> {
        let (st, pool) = (self.state, &mut self.pool[..]);
        let (ids, states) = (&self.ids[..], &self.states[..]);
        let dropped = match op {
            Op::Remove(key) => st.remove_all_versions(pool, *key),
            Op::Vacuum(bound) => {
                st.vacuum_deleted_versions(pool, &Statuses { ids, states }, *bound)
            }
            _ => unreachable!("no call that drops versions: {op:?}"),
        };
        dropped.map(|n| Ans::Count(n as u64))
    }

    fn answer(&mut self, op: &Op) -> Answer<Ans> {
        let versions = |bytes: &[u8]| Ans::List(records::to_versions(bytes));
        let (st, pool) = (self.state, &self.pool[..]);
        match op {
            Op::Create | Op::Insert(..) | Op::InsertVersion(_) | Op::Stamp(..) => self.change(op),
            Op::PlainStamp(..) | Op::PlainDelete(_) | Op::Claim(..) => self.change(op),
            Op::Remove(_) | Op::Vacuum(_) => self.clean(op),
            Op::Find(key) => st
                .find(pool, *key, self.current, &self.statuses())
                .map(|f| self.version(*key, f)),
            Op::Lookup(key, s) => st
                .find_visible(pool, *key, &snapshot(s), &self.statuses())
                .map(|f| self.version(*key, f)),
            Op::Conflict(key, seen, s) => st
                .has_write_conflict(pool, *key, &snapshot(s), *seen)
                .map(Ans::Flag),
            Op::Versions(key) => {
                self.listing(|e, out| st.versions_of(&e.pool, *key, out), versions)
            }
            Op::All => self.listing(|e, out| st.all_versions(&e.pool, out), versions),
            Op::Visible(s) => self.listing(
                |e, out| st.scan_visible(&e.pool, &snapshot(s), &e.statuses(), out),
                versions,
            ),
            Op::PageNumbers => self.listing(
                |e, out| st.page_numbers(&e.pool, out),
                |bytes| Ans::Pages(records::to_pages(bytes)),
            ),
            Op::Scan(..) => unimplemented!("bounded scans stay with the server"),
        }
    }
}

impl Engine for Port {
    fn name(&self) -> &'static str {
        "erbulonge"
    }

    fn root(&self) -> u32 {
        self.state.root
    }

    fn in_use(&self) -> u32 {
        self.state.used
    }

    fn capacity(&self) -> u32 {
        (self.pool.len() / PAGE) as u32
    }

    fn page(&self, n: u32) -> [u8; PAGE] {
        *page::of_pool(&self.pool, n)
    }

    fn open(&mut self, root: u32) {
        self.state.root = root;
    }

    fn set_statuses(&mut self, s: &[(u64, u8)]) {
        (self.ids, self.states) = s.iter().copied().unzip();
    }

    fn set_current(&mut self, current: Option<u64>) {
        self.current = current;
    }

    fn run(&mut self, op: &Op) -> Ans {
        self.answer(op)
            .unwrap_or_else(|refusal| Ans::Refused(refusal.number()))
    }

    fn pool(&self) -> Vec<u8> {
        self.pool.clone()
    }
}
