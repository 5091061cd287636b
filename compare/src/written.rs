//! A list that the port writes.

const AROUND: usize = 64;

/// A list that a leaf writes, with bytes around it that it must not write.
pub(crate) struct Written {
    pub before: Vec<u8>,
    memory: Vec<u8>,
}

impl Written {
    pub fn new(before: Vec<u8>) -> Written {
        let around = [0xa5; AROUND];
        let memory = [&around, &before[..], &around].concat();
        Written { before, memory }
    }

    pub fn list(&mut self) -> &mut [u8] {
        &mut self.memory[AROUND..][..self.before.len()]
    }

    pub fn now(&self) -> &[u8] {
        &self.memory[AROUND..][..self.before.len()]
    }

    pub fn around_kept(&self) -> bool {
        let (first, last) = (
            &self.memory[..AROUND],
            &self.memory[AROUND + self.before.len()..],
        );
        first.iter().chain(last).all(|&b| b == 0xa5)
    }
}
