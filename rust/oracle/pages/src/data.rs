//! Data that the list names by length and seed:
//! crates/test_histories/src/data.rt makes the same bytes.

#[derive(Clone, Copy)]
pub struct Data {
    pub len: usize,
    pub seed: u32,
}

impl Data {
    pub fn bytes(self) -> Vec<u8> {
        let mut x = self.seed;
        let next = |_| {
            x = (x * 25_173 + 13_849) % 65_536;
            (x / 256) as u8
        };
        (0..self.len).map(next).collect()
    }
}
