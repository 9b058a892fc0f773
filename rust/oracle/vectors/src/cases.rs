//! The cases, in named groups.
use wire::{FORMAT, MAX_DATA, PAGE, Version};

pub struct Group<T> {
    pub title: &'static str,
    pub cases: Vec<T>,
}

/// What a reader is given.
pub struct Given {
    pub bytes: Vec<u8>,
    pub at: u64,
}

const KEYS: [i32; 6] = [i32::MIN, -1, 0, 1, 7, i32::MAX];
const CREATORS: [u64; 5] = [0, 1, 5, 1 << 32, u64::MAX];
const STAMPS: [Option<u64>; 4] = [None, Some(0), Some(12), Some(u64::MAX)];
const POINTERS: [Option<(u32, u16)>; 5] = [
    None,
    Some((0, 0)),
    Some((0, u16::MAX)),
    Some((u32::MAX, 0)),
    Some((u32::MAX, u16::MAX)),
];
const LENGTHS: [usize; 6] = [0, 1, 2, 28, 255, 256];

/// Where the payload of a cell begins, and its parts within the cell.
const PAYLOAD: usize = 8;
const STAMP_FLAG: usize = 17;

/// Bytes that are no cell's, to stand before and after one.
const BEFORE: [u8; 5] = [0x81, 0x00, 0xff, 0x01, 0x7e];
const AFTER: [u8; 5] = [0x01, 0x81, 0x00, 0x02, 0xff];

/// Data in which neighbours differ.
fn data(len: usize) -> Vec<u8> {
    (0..len).map(|i| (i % 251) as u8 ^ 0xc5).collect()
}

/// A version whose fields have no two bytes alike, so that none can be taken for another.
fn version(stamped: bool, pointed: bool, len: usize) -> Version {
    Version {
        key: -0x0102_0304,
        creator: 0x1112_1314_1516_1718,
        deleter: stamped.then_some(0x2122_2324_2526_2728),
        ptr: pointed.then_some((0x3132_3334, 0x4142)),
        data: data(len),
    }
}

fn shapes(len: usize) -> [Version; 4] {
    [(false, false), (true, false), (false, true), (true, true)]
        .map(|(stamped, pointed)| version(stamped, pointed, len))
}

fn recorded() -> Version {
    Version::live(7, 5, vec![0, 0])
}

/// Every combination of the fields' values, without data.
fn all_fields() -> Vec<Version> {
    let mut versions = Vec::new();
    for key in KEYS {
        for creator in CREATORS {
            for deleter in STAMPS {
                versions.extend(POINTERS.map(|ptr| Version {
                    deleter,
                    ptr,
                    ..Version::live(key, creator, vec![])
                }));
            }
        }
    }
    versions
}

/// Each field's values in turn, the others as in the fullest shape.
fn one_field() -> Vec<Version> {
    let base = || version(true, true, 3);
    let mut versions = Vec::new();
    versions.extend(KEYS.map(|key| Version { key, ..base() }));
    versions.extend(CREATORS.map(|creator| Version { creator, ..base() }));
    versions.extend(STAMPS.map(|deleter| Version { deleter, ..base() }));
    versions.extend(POINTERS.map(|ptr| Version { ptr, ..base() }));
    versions
}

pub fn written() -> Vec<Group<Version>> {
    vec![
        Group {
            title: "the cell of the listing record in the format's description",
            cases: vec![recorded()],
        },
        Group {
            title: "every combination of field values, no data",
            cases: all_fields(),
        },
        Group {
            title: "data lengths",
            cases: LENGTHS.into_iter().flat_map(shapes).collect(),
        },
        Group {
            title: "the longest data; the last cell fills a page",
            cases: vec![
                version(false, false, MAX_DATA - 1),
                version(false, false, MAX_DATA),
                version(true, true, MAX_DATA),
            ],
        },
    ]
}

fn given(bytes: Vec<u8>, at: usize) -> Given {
    Given {
        bytes,
        at: at as u64,
    }
}

/// A version's cell at the start, at an odd place among other bytes, and
/// before another cell, which is read as well.
fn readings(v: &Version) -> Vec<Given> {
    let cell = v.cell();
    let following = [&cell[..], &recorded().cell()].concat();
    vec![
        given(cell.clone(), 0),
        given([&BEFORE[..], &cell, &AFTER].concat(), BEFORE.len()),
        given(following.clone(), 0),
        given(following, cell.len()),
    ]
}

/// The cells that are damaged: each shape with no data and with three bytes.
fn sound() -> Vec<Vec<u8>> {
    [0, 3]
        .into_iter()
        .flat_map(shapes)
        .map(|v| v.cell())
        .collect()
}

/// The cell with the byte at `at` changed.
fn with_byte(cell: &[u8], at: usize, byte: u8) -> Vec<u8> {
    let mut cell = cell.to_vec();
    cell[at] = byte;
    cell
}

fn with_declared(cell: &[u8], declared: u32) -> Vec<u8> {
    let mut cell = cell.to_vec();
    cell[4..PAYLOAD].copy_from_slice(&declared.to_le_bytes());
    cell
}

fn changed_bytes(cell: &[u8]) -> Vec<Given> {
    let places = 0..cell.len();
    places
        .flat_map(|i| [0, 1, 2, 0x80, 0xff].map(|byte| given(with_byte(cell, i, byte), 0)))
        .collect()
}

fn cuts(cell: &[u8], before: &[u8]) -> Vec<Given> {
    (0..=cell.len())
        .map(|n| given([before, &cell[..n]].concat(), before.len()))
        .collect()
}

fn declared_lengths(cell: &[u8], after: &[u8]) -> Vec<Given> {
    let full = (cell.len() - PAYLOAD) as u32;
    (0..=full + 3)
        .chain([0x7fff_ffff, 0x8000_0000, 0xffff_fff8, 0xffff_ffff])
        .map(|declared| given([&with_declared(cell, declared), after].concat(), 0))
        .collect()
}

/// Offsets about the end of the bytes, and far beyond it.
fn far_offsets(cell: &[u8]) -> Vec<Given> {
    let len = cell.len() as u64;
    let near = [len - 8, len - 7, len - 1, len, len + 1];
    let far = [0xffff_ffff, 1 << 32, 1 << 63, u64::MAX - 7, u64::MAX];
    near.into_iter()
        .chain(far)
        .map(|at| Given {
            bytes: cell.to_vec(),
            at,
        })
        .collect()
}

/// Places in the cell of the bytes that only some values are right for: format
/// byte, stamp flag, pointer flag.
fn judged_places(cell: &[u8]) -> [usize; 3] {
    let pointer_flag = STAMP_FLAG + 1 + 8 * cell[STAMP_FLAG] as usize;
    [PAYLOAD, STAMP_FLAG, pointer_flag]
}

/// A wrong byte at `place`: the bytes or the declared length end before it, right
/// after it, or too soon or too late for the rest.
fn wrong_and_short(cell: &[u8], place: usize) -> Vec<Vec<u8>> {
    let wrong = with_byte(cell, place, 2);
    let declared = |end: usize| with_declared(&wrong, (end - PAYLOAD) as u32);
    vec![
        wrong[..place].to_vec(),
        wrong[..=place].to_vec(),
        wrong[..cell.len() - 1].to_vec(),
        declared(place),
        declared(place + 1),
        declared(cell.len() - 1),
        declared(cell.len() + 1),
    ]
}

/// Faults of several kinds at once: wrong bytes, alone in a payload that is too
/// short or past the end, and two together.
fn combined(cell: &[u8], before: &[u8]) -> Vec<Given> {
    let places = judged_places(cell);
    let [format, stamp, pointer] = places;
    let mut cases: Vec<_> = places
        .into_iter()
        .flat_map(|place| wrong_and_short(cell, place))
        .collect();
    for (one, other) in [(format, stamp), (format, pointer), (stamp, pointer)] {
        cases.push(with_byte(&with_byte(cell, one, 2), other, 2));
    }
    cases
        .into_iter()
        .map(|bytes| given([before, &bytes].concat(), before.len()))
        .collect()
}

/// A page's worth of bytes with a cell where a leaf's first stands, cut at the page's end.
fn in_page(cell: Vec<u8>) -> Given {
    let mut bytes = vec![1, 1, 0, 0, 0, 0, 1, 0, 0, 0, 0, 0];
    bytes.extend(cell);
    bytes.resize(PAGE, 0);
    given(bytes, 12)
}

/// Data lengths about the limit and about the page's end.
fn limits() -> Vec<Given> {
    let live = |len| version(false, false, len).cell();
    let over = live(MAX_DATA + 1);
    let cases = [
        live(MAX_DATA - 1),
        live(MAX_DATA),
        over.clone(),
        live(4065),
        live(4066),
        version(true, false, MAX_DATA + 1).cell(),
        version(false, true, MAX_DATA + 1).cell(),
        version(true, true, MAX_DATA).cell(),
        version(true, true, MAX_DATA + 1).cell(),
        with_byte(&over, PAYLOAD, FORMAT ^ 1),
        with_byte(&over, STAMP_FLAG, 2),
    ];
    cases.into_iter().map(in_page).collect()
}

fn damage(title: &'static str, f: impl Fn(&[u8]) -> Vec<Given>) -> Group<Given> {
    Group {
        title,
        cases: sound().iter().flat_map(|cell| f(cell)).collect(),
    }
}

pub fn read() -> Vec<Group<Given>> {
    let lengths = LENGTHS.into_iter().flat_map(shapes);
    vec![
        Group {
            title: "sound cells: at the start, among other bytes, before another cell",
            cases: lengths
                .chain(one_field())
                .chain([recorded()])
                .flat_map(|v| readings(&v))
                .collect(),
        },
        damage("each byte changed in turn", changed_bytes),
        damage("cut at every length", |cell| cuts(cell, &[])),
        damage("cut at every length, after other bytes", |cell| {
            cuts(cell, &BEFORE)
        }),
        damage("every declared length", |cell| declared_lengths(cell, &[])),
        damage("every declared length, bytes following", |cell| {
            declared_lengths(cell, &AFTER)
        }),
        damage("offsets about the end and beyond", far_offsets),
        damage("several kinds at once", |cell| combined(cell, &[])),
        damage("several kinds at once, after other bytes", |cell| {
            combined(cell, &BEFORE)
        }),
        Group {
            title: "zeros",
            cases: [8, 18, 19, 40].map(|n| given(vec![0; n], 0)).into(),
        },
        Group {
            title: "data about its limit and about the page's end, the cell at offset c",
            cases: limits(),
        },
    ]
}
