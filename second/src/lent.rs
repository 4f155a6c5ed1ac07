//! Memory lent to a program under test, with guard values before and behind it.

const GUARD: usize = 4;

/// One slice between guards. Everything is looked at by bits, never by value.
#[derive(Clone)]
pub struct Lent {
    memory: Vec<f64>,
}

impl Lent {
    pub fn holding(values: &[f64]) -> Self {
        Lent::guarding(values.iter().copied())
    }

    /// A room whose every value is told from every other one and from anything computed.
    pub fn room(length: usize) -> Self {
        Lent::guarding((0..length).map(marked))
    }

    fn guarding(values: impl ExactSizeIterator<Item = f64>) -> Self {
        let mut memory = Vec::with_capacity(values.len() + 2 * GUARD);
        memory.extend((0..GUARD).map(|k| marked(100 + k)));
        memory.extend(values);
        memory.extend((0..GUARD).map(|k| marked(200 + k)));
        Lent { memory }
    }

    pub fn lend(&mut self) -> &mut [f64] {
        let end = self.memory.len() - GUARD;
        &mut self.memory[GUARD..end]
    }

    pub fn values(&self) -> &[f64] {
        &self.memory[GUARD..self.memory.len() - GUARD]
    }

    pub fn same_guards(&self, other: &Lent) -> bool {
        let (before, behind) = (GUARD, self.memory.len() - GUARD);
        same_bits(&self.memory[..before], &other.memory[..before])
            && same_bits(&self.memory[behind..], &other.memory[behind..])
    }
}

pub fn same_bits(one: &[f64], other: &[f64]) -> bool {
    one.len() == other.len() && one.iter().zip(other).all(|(a, b)| a.to_bits() == b.to_bits())
}

/// A value for place `k`: NaNs quiet and signalling with `k` as payload, both infinities, and
/// finite values, which a wrong program may read, copy or add to.
fn marked(k: usize) -> f64 {
    let payload = k as u64 + 1;
    f64::from_bits(match (k, k % 5) {
        (3, _) => 0x7ff0_0000_0000_0000,
        (8, _) => 0xfff0_0000_0000_0000,
        (_, 0) => 0x7ff8_0000_0000_0000 | payload,
        (_, 1) => 0x7ff0_0000_0000_0000 | payload << 20,
        (_, 2) => (1000.5 + k as f64).to_bits(),
        (_, 3) => 0xfff8_0000_0000_0000 | payload << 8,
        _ => (-1e-300 * payload as f64).to_bits(),
    })
}
