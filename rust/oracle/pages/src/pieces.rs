//! A page's image told by pieces: runs copied from the pages as they stood,
//! data by length and seed, and plain bytes; zeros follow the last piece.
use crate::data::Data;
use std::collections::HashMap;
use wire::PAGE;
use wire::text::hex;

/// A shorter run is told by its bytes.
const SHORTEST: usize = 7;

type Window = [u8; SHORTEST];

/// Where a run of bytes stands first and last, in the pages that are copied from.
pub type Places = HashMap<Window, [usize; 2]>;

fn window(bytes: &[u8]) -> Window {
    bytes[..SHORTEST].try_into().unwrap()
}

/// How many bytes are the same at both starts.
fn common(a: &[u8], b: &[u8]) -> usize {
    a.iter().zip(b).take_while(|(x, y)| x == y).count()
}

pub fn places(pool: &[u8], pages: &[u32]) -> Places {
    let mut places = Places::new();
    for &page in pages {
        let start = page as usize * PAGE;
        for at in start..=start + PAGE - SHORTEST {
            let both = places.entry(window(&pool[at..])).or_insert([at; 2]);
            both[1] = at;
        }
    }
    places
}

/// The pieces of `image`, which is to be page `n` of the pool. Runs are looked for at `places`, and
/// taken as they stand there now.
pub fn tell(n: u32, image: &[u8; PAGE], pool: &[u8], places: &Places, data: &[Data]) -> String {
    let end = image.iter().rposition(|&x| x != 0).map_or(0, |i| i + 1);
    let known: Vec<(Data, Vec<u8>)> = data.iter().map(|d| (*d, d.bytes())).collect();
    let mut text = String::new();
    let mut plain: Vec<u8> = Vec::new();
    let mut at = 0;
    let flush = |plain: &mut Vec<u8>, text: &mut String| {
        if !plain.is_empty() {
            text.push_str(&format!(" x {:x} {}", plain.len(), hex(plain)));
            plain.clear();
        }
    };
    while at < end {
        let rest = &image[at..end];
        let made = known
            .iter()
            .find(|(d, bytes)| d.len >= SHORTEST && rest.starts_with(bytes));
        let mut from = vec![n as usize * PAGE + at];
        if rest.len() >= SHORTEST {
            from.extend(places.get(&window(rest)).into_iter().flatten());
        }
        let run = |start: usize| common(rest, &pool[start..(start / PAGE + 1) * PAGE]);
        let best = from
            .into_iter()
            .rev()
            .max_by_key(|&start| run(start))
            .unwrap();
        if let Some((d, bytes)) = made {
            flush(&mut plain, &mut text);
            text.push_str(&format!(" g {:x} {:x}", d.len, d.seed));
            at += bytes.len();
        } else if run(best) >= SHORTEST.min(rest.len()) {
            flush(&mut plain, &mut text);
            text.push_str(&format!(" c {best:x} {:x}", run(best)));
            at += run(best);
        } else {
            plain.push(image[at]);
            at += 1;
        }
    }
    flush(&mut plain, &mut text);
    text
}

fn number(s: &str) -> usize {
    usize::from_str_radix(s, 16).unwrap()
}

fn unhex(s: &str) -> Vec<u8> {
    (0..s.len())
        .step_by(2)
        .map(|i| number(&s[i..i + 2]) as u8)
        .collect()
}

/// The image that the pieces tell.
pub fn image(pieces: &str, pool: &[u8]) -> [u8; PAGE] {
    let words: Vec<&str> = pieces.split_whitespace().collect();
    let mut bytes = Vec::new();
    for piece in words.chunks_exact(3) {
        let (a, b) = (piece[1], piece[2]);
        match piece[0] {
            "c" => bytes.extend_from_slice(&pool[number(a)..][..number(b)]),
            "g" => bytes.extend(
                Data {
                    len: number(a),
                    seed: number(b) as u32,
                }
                .bytes(),
            ),
            _ => bytes.extend(unhex(b)),
        }
    }
    bytes.resize(PAGE, 0);
    bytes.try_into().unwrap()
}
