//! Block words, and what is predicted of a block.

struct BitReader<'a> {
    pub bytes: &'a [u8],
    pub next: usize,
    pub word: u64,
    bits: u32,
}

impl<'a> BitReader<'a> {
    pub fn new(bytes: &'a [u8]) -> Self {
        BitReader { bytes, next: 0, word: 0, bits: 0 }
    }

    pub fn fill(&mut self) {
        while self.bits <= 56 && self.next < self.bytes.len() {
            self.word |= u64::from(self.bytes[self.next]) << (56 - self.bits);
            self.next += 1;
            self.bits += 8;
        }
    }

    fn take(&mut self, count: u32) -> Option<u32> {
        if count == 0 {
            return Some(0);
        }
        if self.bits < count {
            self.fill();
            if self.bits < count {
                return None;
            }
        }
        let value = (self.word >> (64 - count)) as u32;
        self.word <<= count;
        self.bits -= count;
        Some(value)
    }

    fn ones(&mut self) -> Option<u32> {
        self.fill();
        let ones = self.word.leading_ones().min(32);
        let used = if ones < 32 { ones + 1 } else { 32 };
        if self.bits < used {
            return None;
        }
        self.word <<= used;
        self.bits -= used;
        Some(ones)
    }

    fn is_at_end(&self) -> bool {
        self.word == 0 && self.bits < 8 && self.next == self.bytes.len()
    }
}

pub fn read_word(bytes: &[u8], residuals: &mut [i32]) -> Option<()> {
    let mut bits = BitReader::new(bytes);
    let r = bits.take(4)?;
    for residual in residuals {
        let ones = bits.ones()?;
        let u = if ones < 32 {
            (ones << r) | bits.take(r)?
        } else {
            let u = bits.take(18)?;
            if u >> r < 32 {
                return None;
            }
            u
        };
        if u >= 1 << 18 {
            return None;
        }
        *residual = if u & 1 == 0 { (u >> 1) as i32 } else { -((u >> 1) as i32) - 1 };
    }
    bits.is_at_end().then_some(())
}

pub type Patch = [[i16; 7]; 7];

fn weighted(a: i32, b: i32, c: i32, d: i32) -> i32 {
    9 * (b + c) - a - d
}

// What is predicted for the 64 cells of a block from the 7 x 7 coarser heights round it.
pub fn predicted(patch: &Patch) -> [i32; 64] {
    let mut all = [0; 64];
    let mut across = [[0; 4]; 7];
    for (sums, row) in across.iter_mut().zip(patch) {
        for (a, sum) in sums.iter_mut().enumerate() {
            *sum = weighted(row[a].into(), row[a + 1].into(), row[a + 2].into(), row[a + 3].into());
        }
    }
    for b in 0..4 {
        for a in 0..4 {
            let at = 16 * b + 2 * a;
            let column = |t: usize| i32::from(patch[b + t][a + 1]);
            all[at] = column(1);
            all[at + 1] = (across[b + 1][a] + 8) >> 4;
            all[at + 8] = (weighted(column(0), column(1), column(2), column(3)) + 8) >> 4;
            let both = weighted(across[b][a], across[b + 1][a], across[b + 2][a], across[b + 3][a]);
            all[at + 9] = (both + 128) >> 8;
        }
    }
    all
}
