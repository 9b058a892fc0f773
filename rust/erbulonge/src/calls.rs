//! The exported calls as they are: each gives its number (0 is Done) and, when
//! Done, what it gives as words at the start of `answer`. The methods of
//! [`State`] are these with names for the numbers.
//!
//! The only unsafe code is here. A slice goes over as its pointer and its length;
//! the port is proved to touch no byte outside of it, and keeps no pointer.
use crate::{NewVersion, Snapshot, State, Statuses};

/// A version is creator, 1 and deleter or 0 and 0, 1 and page and slot or three
/// times 0, start and length of the data; a state is root and pages in use; a
/// yes is 1; a listing is its length; remove and vacuum give the versions dropped.
pub type Words = [u64; 8];

mod ffi {
    #[rustfmt::skip]
    unsafe extern "C" {
        pub fn erbulonge_create(pool: *mut u8, pool_len: usize, root: u32, used: u32, answer: *mut u64) -> u8;
        pub fn erbulonge_check(pool: *const u8, pool_len: usize, root: u32, used: u32, answer: *mut u64) -> u8;
        pub fn erbulonge_find_visible(
            pool: *const u8, pool_len: usize, root: u32, used: u32, key: i32, xmax: u64,
            active: *const u64, active_len: usize, has_current: bool, current: u64,
            ids: *const u64, ids_len: usize, states: *const u8, states_len: usize, answer: *mut u64,
        ) -> u8;
        pub fn erbulonge_find(
            pool: *const u8, pool_len: usize, root: u32, used: u32, key: i32, has_current: bool, current: u64,
            ids: *const u64, ids_len: usize, states: *const u8, states_len: usize, answer: *mut u64,
        ) -> u8;
        pub fn erbulonge_has_write_conflict(
            pool: *const u8, pool_len: usize, root: u32, used: u32, key: i32, xmax: u64,
            active: *const u64, active_len: usize, has_current: bool, current: u64,
            seen: u64, answer: *mut u64,
        ) -> u8;
        pub fn erbulonge_versions_of(
            pool: *const u8, pool_len: usize, root: u32, used: u32, key: i32,
            out: *mut u8, out_len: usize, answer: *mut u64,
        ) -> u8;
        pub fn erbulonge_all_versions(
            pool: *const u8, pool_len: usize, root: u32, used: u32,
            out: *mut u8, out_len: usize, answer: *mut u64,
        ) -> u8;
        pub fn erbulonge_scan_visible(
            pool: *const u8, pool_len: usize, root: u32, used: u32, xmax: u64,
            active: *const u64, active_len: usize, has_current: bool, current: u64,
            ids: *const u64, ids_len: usize, states: *const u8, states_len: usize,
            out: *mut u8, out_len: usize, answer: *mut u64,
        ) -> u8;
        pub fn erbulonge_page_numbers(
            pool: *const u8, pool_len: usize, root: u32, used: u32,
            out: *mut u8, out_len: usize, answer: *mut u64,
        ) -> u8;
        pub fn erbulonge_insert(
            pool: *mut u8, pool_len: usize, root: u32, used: u32, key: i32, has_current: bool, current: u64,
            ids: *const u64, ids_len: usize, states: *const u8, states_len: usize,
            body: *const u8, body_len: usize, answer: *mut u64,
        ) -> u8;
        pub fn erbulonge_insert_version(
            pool: *mut u8, pool_len: usize, root: u32, used: u32, key: i32, creator: u64,
            has_deleter: bool, deleter: u64, has_pointer: bool, page: u32, slot: u16,
            body: *const u8, body_len: usize, answer: *mut u64,
        ) -> u8;
        pub fn erbulonge_mark_deleted_visible(
            pool: *mut u8, pool_len: usize, root: u32, used: u32, key: i32, xmax: u64,
            active: *const u64, active_len: usize, has_current: bool, current: u64,
            ids: *const u64, ids_len: usize, states: *const u8, states_len: usize,
            deleter: u64, answer: *mut u64,
        ) -> u8;
        pub fn erbulonge_mark_deleted(
            pool: *mut u8, pool_len: usize, root: u32, used: u32, key: i32, has_current: bool, current: u64,
            ids: *const u64, ids_len: usize, states: *const u8, states_len: usize,
            deleter: u64, answer: *mut u64,
        ) -> u8;
        pub fn erbulonge_delete(
            pool: *mut u8, pool_len: usize, root: u32, used: u32, key: i32, has_current: bool, current: u64,
            ids: *const u64, ids_len: usize, states: *const u8, states_len: usize, answer: *mut u64,
        ) -> u8;
        pub fn erbulonge_claim(
            pool: *mut u8, pool_len: usize, root: u32, used: u32, key: i32, xmax: u64,
            active: *const u64, active_len: usize, has_current: bool, current: u64,
            ids: *const u64, ids_len: usize, states: *const u8, states_len: usize, answer: *mut u64,
        ) -> u8;
        pub fn erbulonge_remove_all_versions(
            pool: *mut u8, pool_len: usize, root: u32, used: u32, key: i32, answer: *mut u64,
        ) -> u8;
        pub fn erbulonge_vacuum_deleted_versions(
            pool: *mut u8, pool_len: usize, root: u32, used: u32,
            ids: *const u64, ids_len: usize, states: *const u8, states_len: usize,
            bound: u64, answer: *mut u64,
        ) -> u8;
    }
}

pub fn create(pool: &mut [u8], st: State, answer: &mut Words) -> u8 {
    let (to, len) = (pool.as_mut_ptr(), pool.len());
    unsafe { ffi::erbulonge_create(to, len, st.root, st.used, answer.as_mut_ptr()) }
}

pub fn check(pool: &[u8], st: State, answer: &mut Words) -> u8 {
    let (from, len) = (pool.as_ptr(), pool.len());
    unsafe { ffi::erbulonge_check(from, len, st.root, st.used, answer.as_mut_ptr()) }
}

pub fn find_visible(
    pool: &[u8],
    st: State,
    key: i32,
    snapshot: &Snapshot,
    statuses: &Statuses,
    answer: &mut Words,
) -> u8 {
    unsafe {
        ffi::erbulonge_find_visible(
            pool.as_ptr(),
            pool.len(),
            st.root,
            st.used,
            key,
            snapshot.xmax,
            snapshot.active.as_ptr(),
            snapshot.active.len(),
            snapshot.current.is_some(),
            snapshot.current.unwrap_or(0),
            statuses.ids.as_ptr(),
            statuses.ids.len(),
            statuses.states.as_ptr(),
            statuses.states.len(),
            answer.as_mut_ptr(),
        )
    }
}

pub fn find(
    pool: &[u8],
    st: State,
    key: i32,
    current: Option<u64>,
    statuses: &Statuses,
    answer: &mut Words,
) -> u8 {
    unsafe {
        ffi::erbulonge_find(
            pool.as_ptr(),
            pool.len(),
            st.root,
            st.used,
            key,
            current.is_some(),
            current.unwrap_or(0),
            statuses.ids.as_ptr(),
            statuses.ids.len(),
            statuses.states.as_ptr(),
            statuses.states.len(),
            answer.as_mut_ptr(),
        )
    }
}

pub fn has_write_conflict(
    pool: &[u8],
    st: State,
    key: i32,
    snapshot: &Snapshot,
    seen: u64,
    answer: &mut Words,
) -> u8 {
    unsafe {
        ffi::erbulonge_has_write_conflict(
            pool.as_ptr(),
            pool.len(),
            st.root,
            st.used,
            key,
            snapshot.xmax,
            snapshot.active.as_ptr(),
            snapshot.active.len(),
            snapshot.current.is_some(),
            snapshot.current.unwrap_or(0),
            seen,
            answer.as_mut_ptr(),
        )
    }
}

pub fn versions_of(pool: &[u8], st: State, key: i32, out: &mut [u8], answer: &mut Words) -> u8 {
    unsafe {
        ffi::erbulonge_versions_of(
            pool.as_ptr(),
            pool.len(),
            st.root,
            st.used,
            key,
            out.as_mut_ptr(),
            out.len(),
            answer.as_mut_ptr(),
        )
    }
}

pub fn all_versions(pool: &[u8], st: State, out: &mut [u8], answer: &mut Words) -> u8 {
    unsafe {
        ffi::erbulonge_all_versions(
            pool.as_ptr(),
            pool.len(),
            st.root,
            st.used,
            out.as_mut_ptr(),
            out.len(),
            answer.as_mut_ptr(),
        )
    }
}

pub fn scan_visible(
    pool: &[u8],
    st: State,
    snapshot: &Snapshot,
    statuses: &Statuses,
    out: &mut [u8],
    answer: &mut Words,
) -> u8 {
    unsafe {
        ffi::erbulonge_scan_visible(
            pool.as_ptr(),
            pool.len(),
            st.root,
            st.used,
            snapshot.xmax,
            snapshot.active.as_ptr(),
            snapshot.active.len(),
            snapshot.current.is_some(),
            snapshot.current.unwrap_or(0),
            statuses.ids.as_ptr(),
            statuses.ids.len(),
            statuses.states.as_ptr(),
            statuses.states.len(),
            out.as_mut_ptr(),
            out.len(),
            answer.as_mut_ptr(),
        )
    }
}

pub fn page_numbers(pool: &[u8], st: State, out: &mut [u8], answer: &mut Words) -> u8 {
    unsafe {
        ffi::erbulonge_page_numbers(
            pool.as_ptr(),
            pool.len(),
            st.root,
            st.used,
            out.as_mut_ptr(),
            out.len(),
            answer.as_mut_ptr(),
        )
    }
}

pub fn insert(
    pool: &mut [u8],
    st: State,
    key: i32,
    current: Option<u64>,
    statuses: &Statuses,
    data: &[u8],
    answer: &mut Words,
) -> u8 {
    unsafe {
        ffi::erbulonge_insert(
            pool.as_mut_ptr(),
            pool.len(),
            st.root,
            st.used,
            key,
            current.is_some(),
            current.unwrap_or(0),
            statuses.ids.as_ptr(),
            statuses.ids.len(),
            statuses.states.as_ptr(),
            statuses.states.len(),
            data.as_ptr(),
            data.len(),
            answer.as_mut_ptr(),
        )
    }
}

pub fn insert_version(
    pool: &mut [u8],
    st: State,
    key: i32,
    version: &NewVersion,
    answer: &mut Words,
) -> u8 {
    let (page, slot) = version.pointer.unwrap_or((0, 0));
    unsafe {
        ffi::erbulonge_insert_version(
            pool.as_mut_ptr(),
            pool.len(),
            st.root,
            st.used,
            key,
            version.creator,
            version.deleter.is_some(),
            version.deleter.unwrap_or(0),
            version.pointer.is_some(),
            page,
            slot,
            version.data.as_ptr(),
            version.data.len(),
            answer.as_mut_ptr(),
        )
    }
}

pub fn mark_deleted_visible(
    pool: &mut [u8],
    st: State,
    key: i32,
    snapshot: &Snapshot,
    statuses: &Statuses,
    deleter: u64,
    answer: &mut Words,
) -> u8 {
    unsafe {
        ffi::erbulonge_mark_deleted_visible(
            pool.as_mut_ptr(),
            pool.len(),
            st.root,
            st.used,
            key,
            snapshot.xmax,
            snapshot.active.as_ptr(),
            snapshot.active.len(),
            snapshot.current.is_some(),
            snapshot.current.unwrap_or(0),
            statuses.ids.as_ptr(),
            statuses.ids.len(),
            statuses.states.as_ptr(),
            statuses.states.len(),
            deleter,
            answer.as_mut_ptr(),
        )
    }
}

pub fn mark_deleted(
    pool: &mut [u8],
    st: State,
    key: i32,
    current: Option<u64>,
    statuses: &Statuses,
    deleter: u64,
    answer: &mut Words,
) -> u8 {
    unsafe {
        ffi::erbulonge_mark_deleted(
            pool.as_mut_ptr(),
            pool.len(),
            st.root,
            st.used,
            key,
            current.is_some(),
            current.unwrap_or(0),
            statuses.ids.as_ptr(),
            statuses.ids.len(),
            statuses.states.as_ptr(),
            statuses.states.len(),
            deleter,
            answer.as_mut_ptr(),
        )
    }
}

pub fn delete(
    pool: &mut [u8],
    st: State,
    key: i32,
    current: Option<u64>,
    statuses: &Statuses,
    answer: &mut Words,
) -> u8 {
    unsafe {
        ffi::erbulonge_delete(
            pool.as_mut_ptr(),
            pool.len(),
            st.root,
            st.used,
            key,
            current.is_some(),
            current.unwrap_or(0),
            statuses.ids.as_ptr(),
            statuses.ids.len(),
            statuses.states.as_ptr(),
            statuses.states.len(),
            answer.as_mut_ptr(),
        )
    }
}

pub fn claim(
    pool: &mut [u8],
    st: State,
    key: i32,
    snapshot: &Snapshot,
    statuses: &Statuses,
    answer: &mut Words,
) -> u8 {
    unsafe {
        ffi::erbulonge_claim(
            pool.as_mut_ptr(),
            pool.len(),
            st.root,
            st.used,
            key,
            snapshot.xmax,
            snapshot.active.as_ptr(),
            snapshot.active.len(),
            snapshot.current.is_some(),
            snapshot.current.unwrap_or(0),
            statuses.ids.as_ptr(),
            statuses.ids.len(),
            statuses.states.as_ptr(),
            statuses.states.len(),
            answer.as_mut_ptr(),
        )
    }
}

pub fn remove_all_versions(pool: &mut [u8], st: State, key: i32, answer: &mut Words) -> u8 {
    unsafe {
        ffi::erbulonge_remove_all_versions(
            pool.as_mut_ptr(),
            pool.len(),
            st.root,
            st.used,
            key,
            answer.as_mut_ptr(),
        )
    }
}

pub fn vacuum_deleted_versions(
    pool: &mut [u8],
    st: State,
    statuses: &Statuses,
    bound: u64,
    answer: &mut Words,
) -> u8 {
    unsafe {
        ffi::erbulonge_vacuum_deleted_versions(
            pool.as_mut_ptr(),
            pool.len(),
            st.root,
            st.used,
            statuses.ids.as_ptr(),
            statuses.ids.len(),
            statuses.states.as_ptr(),
            statuses.states.len(),
            bound,
            answer.as_mut_ptr(),
        )
    }
}
