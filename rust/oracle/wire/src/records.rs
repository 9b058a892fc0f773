//! Listings: one record per version or page, a u32 length of what follows first.
use crate::Version;

fn record(kind: u16, body: &[u8]) -> Vec<u8> {
    let mut out = (body.len() as u32 + 2).to_le_bytes().to_vec();
    out.extend(kind.to_le_bytes());
    out.extend(body);
    out
}

/// Kind 1 and the leaf cell.
pub fn of_cell(cell: &[u8]) -> Vec<u8> {
    record(1, cell)
}

pub fn of_versions(versions: &[Version]) -> Vec<u8> {
    versions.iter().flat_map(|v| of_cell(&v.cell())).collect()
}

/// Kind 5 and the page number.
pub fn of_pages(pages: &[u32]) -> Vec<u8> {
    pages
        .iter()
        .flat_map(|p| record(5, &p.to_le_bytes()))
        .collect()
}

/// What the records hold, their kinds left out.
fn bodies(bytes: &[u8]) -> Vec<&[u8]> {
    let mut rest = bytes;
    let mut bodies = Vec::new();
    while let Some((length, after)) = rest.split_first_chunk() {
        let (body, next) = after.split_at(u32::from_le_bytes(*length) as usize);
        bodies.push(&body[2..]);
        rest = next;
    }
    bodies
}

/// The versions of a listing that `of_versions` makes.
pub fn to_versions(bytes: &[u8]) -> Vec<Version> {
    bodies(bytes).into_iter().map(Version::of_cell).collect()
}

/// The pages of a listing that `of_pages` makes.
pub fn to_pages(bytes: &[u8]) -> Vec<u32> {
    let number = |body: &[u8]| u32::from_le_bytes(body.try_into().unwrap());
    bodies(bytes).into_iter().map(number).collect()
}
