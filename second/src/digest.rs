//! A digest of words: FNV-1a of 64 bits over each word's four bytes, lowest first.
//!
//! Start with 14695981039346656037 (hexadecimal cbf29ce484222325). For each byte b, first
//! replace the lowest eight bits by their exclusive or with b, then multiply by
//! 1099511628211 = 2^40 + 435 modulo 2^64.
//!
//! Where 64-bit arithmetic may not wrap, keep the state as `high` and `low`, both below 2^32;
//! multiplying is then, with nothing above 2^42:
//!
//! ```text
//! p = low * 435
//! high' = (high * 435 + p / 2^32 + (low mod 2^24) * 256) mod 2^32
//! low'  = p mod 2^32
//! ```

/// The state of a digest.
#[derive(Clone, Copy, Debug, PartialEq, Eq)]
pub struct Digest {
    state: u64,
}

impl Digest {
    /// The digest of no words.
    pub fn new() -> Digest {
        Digest {
            state: 0xcbf2_9ce4_8422_2325,
        }
    }

    /// The digest of these words alone.
    pub fn of(words: &[u32]) -> Digest {
        let mut digest = Digest::new();
        digest.add(words);
        digest
    }

    /// Adds words to the digest.
    pub fn add(&mut self, words: &[u32]) {
        for byte in words.iter().flat_map(|word| word.to_le_bytes()) {
            self.state ^= u64::from(byte);
            self.state = self.state.wrapping_mul(1_099_511_628_211);
        }
    }
}

impl Default for Digest {
    /// The digest of no words.
    fn default() -> Digest {
        Digest::new()
    }
}

impl std::fmt::Display for Digest {
    /// Prints the digest as 16 hexadecimal digits.
    fn fmt(&self, f: &mut std::fmt::Formatter<'_>) -> std::fmt::Result {
        write!(f, "{:016x}", self.state)
    }
}

#[cfg(test)]
mod tests {
    use super::Digest;

    /// The multiplication by halves that the module's comment describes.
    fn by_halves(words: &[u32]) -> u64 {
        let (mut high, mut low) = (0xcbf2_9ce4u64, 0x8422_2325u64);
        for byte in words.iter().flat_map(|word| word.to_le_bytes()) {
            low = low / 256 * 256 + ((low % 256) ^ u64::from(byte));
            let p = low * 435;
            high = (high * 435 + p / (1 << 32) + low % (1 << 24) * 256) % (1 << 32);
            low = p % (1 << 32);
        }
        high * (1 << 32) + low
    }

    #[test]
    fn the_digest_by_halves_is_the_digest() {
        let words: Vec<u32> = (0..1000).map(|j| u32::MAX / 1000 * j).collect();
        assert_eq!(Digest::of(&words).state, by_halves(&words));
    }

    #[test]
    fn published_digests() {
        let foob = [u32::from_le_bytes(*b"foob")];
        assert_eq!(Digest::of(&[]).to_string(), "cbf29ce484222325");
        assert_eq!(Digest::of(&foob).to_string(), "dd120e790c2512af");
    }
}
