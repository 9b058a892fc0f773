//! The frame table, latches and lock pattern of aerodb's storage/pager.rs, whose
//! bodies of frame, resident_frame, with_page and with_page_mut these are, but
//! without file, log and latch-order assertions: `flush_page` takes the
//! transaction lock and returns, as the original does inside a transaction.
//! This is the fair one to time. It keeps no journal.
use crate::storage::page::PAGE_SIZE;
use crate::transaction::{TransactionId, TransactionTable};
use std::io;
use std::sync::atomic::{AtomicU32, Ordering};
use std::sync::{Arc, Mutex, MutexGuard, RwLock};

pub type PageData = [u8; PAGE_SIZE];

struct Frame {
    data: RwLock<PageData>,
}

impl Frame {
    fn holding(data: PageData) -> Arc<Self> {
        Arc::new(Frame {
            data: RwLock::new(data),
        })
    }
}

pub struct Pager {
    frames: RwLock<Vec<Option<Arc<Frame>>>>,
    num_pages: AtomicU32,
    tx_table: RwLock<TransactionTable>,
    transaction: Mutex<Option<TransactionId>>,
}

impl Pager {
    /// Whether `undo` can take back a call.
    pub const UNDOES: bool = false;

    pub fn with_pool(pages: Vec<PageData>, in_use: u32) -> Self {
        let used = pages.into_iter().take(in_use as usize);
        Pager {
            frames: RwLock::new(used.map(|p| Some(Frame::holding(p))).collect()),
            num_pages: AtomicU32::new(in_use),
            tx_table: RwLock::new(TransactionTable::new()),
            transaction: Mutex::new(None),
        }
    }

    fn frame(&self, page_num: u32) -> io::Result<Arc<Frame>> {
        let mut known = self.num_pages.load(Ordering::SeqCst);
        while page_num >= known {
            match self.num_pages.compare_exchange(
                known,
                page_num + 1,
                Ordering::SeqCst,
                Ordering::SeqCst,
            ) {
                Ok(_) => break,
                Err(actual) => known = actual,
            }
        }
        if let Some(frame) = self.resident_frame(page_num) {
            return Ok(frame);
        }
        let mut frames = self
            .frames
            .write()
            .unwrap_or_else(|poisoned| poisoned.into_inner());
        if frames.len() <= page_num as usize {
            frames.resize_with(page_num as usize + 1, || None);
        }
        if let Some(frame) = &frames[page_num as usize] {
            return Ok(Arc::clone(frame));
        }
        let frame = Frame::holding([0; PAGE_SIZE]);
        frames[page_num as usize] = Some(Arc::clone(&frame));
        Ok(frame)
    }

    fn resident_frame(&self, page_num: u32) -> Option<Arc<Frame>> {
        let frames = self
            .frames
            .read()
            .unwrap_or_else(|poisoned| poisoned.into_inner());
        frames
            .get(page_num as usize)
            .and_then(|slot| slot.as_ref())
            .map(Arc::clone)
    }

    fn transaction(&self) -> MutexGuard<'_, Option<TransactionId>> {
        self.transaction
            .lock()
            .unwrap_or_else(|poisoned| poisoned.into_inner())
    }

    // What btree.rs calls.

    pub fn with_page<R>(&self, page_num: u32, f: impl FnOnce(&PageData) -> R) -> io::Result<R> {
        let frame = self.frame(page_num)?;
        let guard = frame
            .data
            .read()
            .unwrap_or_else(|poisoned| poisoned.into_inner());
        Ok(f(&guard))
    }

    pub fn with_page_mut<R>(
        &self,
        page_num: u32,
        f: impl FnOnce(&mut PageData) -> R,
    ) -> io::Result<R> {
        let frame = self.frame(page_num)?;
        let mut guard = frame
            .data
            .write()
            .unwrap_or_else(|poisoned| poisoned.into_inner());
        Ok(f(&mut guard))
    }

    pub fn read_page(&self, page_num: u32) -> io::Result<PageData> {
        self.with_page(page_num, |data| *data)
    }

    pub fn write_page(&self, page_num: u32, data: &PageData) -> io::Result<()> {
        self.with_page_mut(page_num, |dst| dst.copy_from_slice(data))
    }

    pub fn allocate_page(&self) -> io::Result<u32> {
        Ok(self.num_pages.fetch_add(1, Ordering::SeqCst))
    }

    pub fn flush_page(&self, _page_num: u32) -> io::Result<()> {
        let _installed = self.transaction();
        Ok(())
    }

    pub fn file_length_pages(&self) -> u32 {
        self.num_pages()
    }

    pub fn num_pages(&self) -> u32 {
        self.num_pages.load(Ordering::SeqCst)
    }

    pub fn transaction_id(&self) -> Option<TransactionId> {
        *self.transaction()
    }

    pub fn transaction_table(&self) -> TransactionTable {
        self.with_transaction_table(TransactionTable::clone)
    }

    pub(crate) fn with_transaction_table<R>(&self, f: impl FnOnce(&TransactionTable) -> R) -> R {
        f(&self
            .tx_table
            .read()
            .unwrap_or_else(|poisoned| poisoned.into_inner()))
    }

    // What oracle.rs adds.

    pub fn set_transaction(&self, current: Option<TransactionId>) {
        *self.transaction() = current;
    }

    pub fn set_transaction_table(&self, table: TransactionTable) {
        *self.tx_table.write().unwrap() = table;
    }

    /// Bytes of any page. Asks no frame of a page that has none, since that
    /// would count the page as in use.
    pub fn image(&self, page_num: u32) -> PageData {
        self.resident_frame(page_num)
            .map_or([0; PAGE_SIZE], |frame| *frame.data.read().unwrap())
    }

    pub fn begin(&self, _journal: bool) {}

    pub fn undo(&self, _capacity: u32) {
        unimplemented!("the latched pager keeps no journal")
    }

    pub fn touched(&self) -> Option<Vec<u32>> {
        None
    }
}
