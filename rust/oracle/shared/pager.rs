//! In-memory stand-in for aerodb's storage/pager.rs: what btree.rs calls, and a
//! journal of page images, so that a refused call can be undone.
//!
//! No file, log, locks or latches. A page number at or above the pages in use
//! is an error here, where the original extends the file; a well-formed tree
//! never asks for one. `file_length_pages` equals `num_pages`.
use crate::storage::page::PAGE_SIZE;
use crate::transaction::{TransactionId, TransactionTable};
use std::cell::{Cell, RefCell};
use std::collections::BTreeMap;
use std::io;

pub type PageData = [u8; PAGE_SIZE];

struct Journal {
    on: bool,
    images: BTreeMap<u32, Box<PageData>>,
    in_use: u32,
}

pub struct Pager {
    pages: RefCell<Vec<PageData>>,
    in_use: Cell<u32>,
    tx_table: RefCell<TransactionTable>,
    current: Cell<Option<TransactionId>>,
    journal: RefCell<Journal>,
    /// Page accesses left before a panic: on a damaged pool the Rust may loop.
    pub fuel: Cell<u64>,
}

impl Pager {
    /// Whether `undo` can take back a call.
    pub const UNDOES: bool = true;

    pub fn with_pool(pages: Vec<PageData>, in_use: u32) -> Self {
        assert!(in_use as usize <= pages.len());
        Pager {
            pages: RefCell::new(pages),
            in_use: Cell::new(in_use),
            tx_table: RefCell::new(TransactionTable::new()),
            current: Cell::new(None),
            journal: RefCell::new(Journal {
                on: false,
                images: BTreeMap::new(),
                in_use,
            }),
            fuel: Cell::new(u64::MAX),
        }
    }

    fn check(&self, page_num: u32) -> io::Result<()> {
        let fuel = self.fuel.get();
        assert!(fuel > 0, "out of fuel");
        self.fuel.set(fuel - 1);
        if page_num >= self.in_use.get() {
            return Err(io::Error::other(format!("page {page_num} is not in use")));
        }
        Ok(())
    }

    fn remember(&self, page_num: u32) {
        let mut journal = self.journal.borrow_mut();
        if journal.on {
            let image = || Box::new(self.image(page_num));
            journal.images.entry(page_num).or_insert_with(image);
        }
    }

    // What btree.rs calls.

    pub fn with_page<R>(&self, page_num: u32, f: impl FnOnce(&PageData) -> R) -> io::Result<R> {
        self.check(page_num)?;
        Ok(f(&self.pages.borrow()[page_num as usize]))
    }

    pub fn with_page_mut<R>(
        &self,
        page_num: u32,
        f: impl FnOnce(&mut PageData) -> R,
    ) -> io::Result<R> {
        self.check(page_num)?;
        self.remember(page_num);
        Ok(f(&mut self.pages.borrow_mut()[page_num as usize]))
    }

    pub fn read_page(&self, page_num: u32) -> io::Result<PageData> {
        self.with_page(page_num, |data| *data)
    }

    pub fn write_page(&self, page_num: u32, data: &PageData) -> io::Result<()> {
        self.with_page_mut(page_num, |dst| *dst = *data)
    }

    /// Never fails, as in the original: the pool grows past its capacity, and
    /// the caller judges NoPages afterwards. A new page is zeros.
    pub fn allocate_page(&self) -> io::Result<u32> {
        let n = self.in_use.get();
        if self.pages.borrow().len() <= n as usize {
            self.pages.borrow_mut().push([0; PAGE_SIZE]);
        }
        self.in_use.set(n + 1);
        self.write_page(n, &[0; PAGE_SIZE])?;
        Ok(n)
    }

    pub fn flush_page(&self, _page_num: u32) -> io::Result<()> {
        Ok(())
    }

    pub fn file_length_pages(&self) -> u32 {
        self.num_pages()
    }

    pub fn num_pages(&self) -> u32 {
        self.in_use.get()
    }

    pub fn transaction_id(&self) -> Option<TransactionId> {
        self.current.get()
    }

    pub fn transaction_table(&self) -> TransactionTable {
        self.tx_table.borrow().clone()
    }

    pub(crate) fn with_transaction_table<R>(&self, f: impl FnOnce(&TransactionTable) -> R) -> R {
        f(&self.tx_table.borrow())
    }

    // What oracle.rs adds.

    pub fn set_transaction(&self, current: Option<TransactionId>) {
        self.current.set(current);
    }

    pub fn set_transaction_table(&self, table: TransactionTable) {
        *self.tx_table.borrow_mut() = table;
    }

    /// Bytes of any page of the pool, in use or not.
    pub fn image(&self, page_num: u32) -> PageData {
        self.pages.borrow()[page_num as usize]
    }

    /// Start of a call. With `journal`, its stores can be undone and listed.
    pub fn begin(&self, journal: bool) {
        *self.journal.borrow_mut() = Journal {
            on: journal,
            images: BTreeMap::new(),
            in_use: self.in_use.get(),
        };
    }

    /// Undo every store since `begin`.
    pub fn undo(&self, capacity: u32) {
        let mut journal = self.journal.borrow_mut();
        assert!(journal.on, "undo needs the journal");
        let mut pages = self.pages.borrow_mut();
        for (n, image) in std::mem::take(&mut journal.images) {
            pages[n as usize] = *image;
        }
        pages.truncate(capacity as usize);
        self.in_use.set(journal.in_use);
    }

    /// Pages stored to since `begin`, ascending, if the journal was kept.
    pub fn touched(&self) -> Option<Vec<u32>> {
        let journal = self.journal.borrow();
        journal.on.then(|| journal.images.keys().copied().collect())
    }
}
