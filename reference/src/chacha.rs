//! The seeded words of storms and of made scenarios: the ChaCha stream with 8 rounds.

/// The words of the stream for one seed, in order.
pub struct Words {
    key: [u32; 8],
    block: u64,
    buffer: [u32; 16],
    used: usize,
}

fn quarter(x: &mut [u32; 16], a: usize, b: usize, c: usize, d: usize) {
    x[a] = x[a].wrapping_add(x[b]);
    x[d] = (x[d] ^ x[a]).rotate_left(16);
    x[c] = x[c].wrapping_add(x[d]);
    x[b] = (x[b] ^ x[c]).rotate_left(12);
    x[a] = x[a].wrapping_add(x[b]);
    x[d] = (x[d] ^ x[a]).rotate_left(8);
    x[c] = x[c].wrapping_add(x[d]);
    x[b] = (x[b] ^ x[c]).rotate_left(7);
}

/// Returns one block with the given number of rounds: constants, key, 64-bit place, stream 0.
pub fn block(key: &[u32; 8], place: u64, rounds: usize) -> [u32; 16] {
    let mut state = [0u32; 16];
    state[0..4].copy_from_slice(&[0x61707865, 0x3320646e, 0x79622d32, 0x6b206574]);
    state[4..12].copy_from_slice(key);
    state[12] = place as u32;
    state[13] = (place >> 32) as u32;
    let mut x = state;
    for _ in 0..rounds / 2 {
        quarter(&mut x, 0, 4, 8, 12);
        quarter(&mut x, 1, 5, 9, 13);
        quarter(&mut x, 2, 6, 10, 14);
        quarter(&mut x, 3, 7, 11, 15);
        quarter(&mut x, 0, 5, 10, 15);
        quarter(&mut x, 1, 6, 11, 12);
        quarter(&mut x, 2, 7, 8, 13);
        quarter(&mut x, 3, 4, 9, 14);
    }
    for i in 0..16 {
        x[i] = x[i].wrapping_add(state[i]);
    }
    x
}

impl Words {
    /// Starts the stream. The key is the seed's 8 bytes in little-endian order and 24 zero bytes.
    pub fn start(seed: u64) -> Words {
        let mut key = [0u32; 8];
        key[0] = seed as u32;
        key[1] = (seed >> 32) as u32;
        Words { key, block: 0, buffer: [0; 16], used: 16 }
    }

    /// Returns the next word.
    pub fn next_word(&mut self) -> u32 {
        if self.used == 16 {
            self.buffer = block(&self.key, self.block, 8);
            self.block += 1;
            self.used = 0;
        }
        let w = self.buffer[self.used];
        self.used += 1;
        w
    }
}
