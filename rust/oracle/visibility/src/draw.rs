//! The source of numbers. crates/test_visibility/src/draw.rt is the same in Rattle:
//! no product passes 64 bits, so that it needs no arithmetic that wraps.

pub struct Draw(u32);

impl Draw {
    pub fn new() -> Self {
        Draw(1)
    }

    /// A number below `n`.
    pub fn below(&mut self, n: usize) -> usize {
        let x = u64::from(self.0) * 48_271 % 2_147_483_647;
        self.0 = x as u32;
        x as usize % n
    }

    pub fn one_of(&mut self, list: &[u64]) -> u64 {
        list[self.below(list.len())]
    }

    /// One of `list` or, as often, one of `other`.
    pub fn either(&mut self, list: &[u64], other: &[u64]) -> u64 {
        let chosen = if self.below(2) == 0 { list } else { other };
        self.one_of(chosen)
    }
}
