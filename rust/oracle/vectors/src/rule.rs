//! What a reader answers by the rule of the format alone, told by which kinds of
//! fault hold and not by the steps of a reader.
use wire::{FORMAT, MAX_DATA};

#[derive(Debug, PartialEq, Eq)]
pub struct Cell {
    pub key: i32,
    pub creator: u64,
    pub stamp: Option<u64>,
    pub pointer: Option<(u32, u16)>,
    /// Where the data begins, its length, and where the cell ends.
    pub start: usize,
    pub len: usize,
    pub next: usize,
}

/// A payload as far as it is there.
struct Payload<'a> {
    /// What the cell's length field says.
    declared: usize,
    /// The bytes inside both the declared length and the bytes given.
    present: &'a [u8],
}

impl Payload<'_> {
    fn stamp_flag(&self) -> Option<u8> {
        self.present.get(9).copied()
    }

    fn pointer_flag(&self) -> Option<u8> {
        let place = match self.stamp_flag()? {
            0 => 10,
            1 => 18,
            _ => return None,
        };
        self.present.get(place).copied()
    }

    /// Bytes before the data: format byte, creator, two flags, and what the
    /// flags announce.
    fn head(&self) -> usize {
        let stamp = 8 * (self.stamp_flag() == Some(1)) as usize;
        let pointer = 6 * (self.pointer_flag() == Some(1)) as usize;
        11 + stamp + pointer
    }

    /// Kind 1 to 4 and whether it holds.
    fn kinds(&self) -> [(u8, bool); 4] {
        let flags = [self.stamp_flag(), self.pointer_flag()];
        let past = self.declared > self.present.len();
        [
            (1, self.present.first().is_some_and(|&b| b != FORMAT)),
            (2, flags.iter().flatten().any(|&flag| flag > 1)),
            (3, past || self.declared < self.head()),
            (4, self.declared > self.head() + MAX_DATA),
        ]
    }
}

fn bytes_at<const N: usize>(bytes: &[u8], at: usize) -> [u8; N] {
    bytes[at..at + N].try_into().unwrap()
}

/// The cell at `at`, or the lowest kind of fault that holds.
pub fn read(bytes: &[u8], at: u64) -> Result<Cell, u8> {
    let rest = usize::try_from(at).ok().and_then(|at| bytes.get(at..));
    let Some((head, after)) = rest.and_then(|rest| rest.split_at_checked(8)) else {
        return Err(3);
    };
    let declared = u32::from_le_bytes(bytes_at(head, 4)) as usize;
    let payload = Payload {
        declared,
        present: &after[..declared.min(after.len())],
    };
    let faults = payload.kinds().into_iter().filter(|(_, holds)| *holds);
    if let Some(kind) = faults.map(|(kind, _)| kind).min() {
        return Err(kind);
    }
    let p = payload.present;
    let pointed = payload.head() - 6;
    let base = at as usize + 8;
    Ok(Cell {
        key: i32::from_le_bytes(bytes_at(head, 0)),
        creator: u64::from_le_bytes(bytes_at(p, 1)),
        stamp: (p[9] == 1).then(|| u64::from_le_bytes(bytes_at(p, 10))),
        pointer: (payload.pointer_flag() == Some(1)).then(|| {
            let page = u32::from_le_bytes(bytes_at(p, pointed));
            (page, u16::from_le_bytes(bytes_at(p, pointed + 4)))
        }),
        start: base + payload.head(),
        len: declared - payload.head(),
        next: base + declared,
    })
}
