//! SHA-256 of short messages: up to 64 bytes of dice and a number of 8 bytes. One at a time, or
//! sixteen at once where the processor has wide registers.

const K: [u32; 64] = [
    0x428a2f98, 0x71374491, 0xb5c0fbcf, 0xe9b5dba5, 0x3956c25b, 0x59f111f1, 0x923f82a4, 0xab1c5ed5, //
    0xd807aa98, 0x12835b01, 0x243185be, 0x550c7dc3, 0x72be5d74, 0x80deb1fe, 0x9bdc06a7, 0xc19bf174, //
    0xe49b69c1, 0xefbe4786, 0x0fc19dc6, 0x240ca1cc, 0x2de92c6f, 0x4a7484aa, 0x5cb0a9dc, 0x76f988da, //
    0x983e5152, 0xa831c66d, 0xb00327c8, 0xbf597fc7, 0xc6e00bf3, 0xd5a79147, 0x06ca6351, 0x14292967, //
    0x27b70a85, 0x2e1b2138, 0x4d2c6dfc, 0x53380d13, 0x650a7354, 0x766a0abb, 0x81c2c92e, 0x92722c85, //
    0xa2bfe8a1, 0xa81a664b, 0xc24b8b70, 0xc76c51a3, 0xd192e819, 0xd6990624, 0xf40e3585, 0x106aa070, //
    0x19a4c116, 0x1e376c08, 0x2748774c, 0x34b0bcb5, 0x391c0cb3, 0x4ed8aa4a, 0x5b9cca4f, 0x682e6ff3, //
    0x748f82ee, 0x78a5636f, 0x84c87814, 0x8cc70208, 0x90befffa, 0xa4506ceb, 0xbef9a3f7, 0xc67178f2,
];
const START: [u32; 8] =
    [0x6a09e667, 0xbb67ae85, 0x3c6ef372, 0xa54ff53a, 0x510e527f, 0x9b05688c, 0x1f83d9ab, 0x5be0cd19];

/// One word of L messages.
type Wide<const L: usize> = [u32; L];

#[inline(always)]
fn each<const L: usize>(f: impl Fn(usize) -> u32) -> Wide<L> {
    let mut w = [0; L];
    for (l, w) in w.iter_mut().enumerate() {
        *w = f(l);
    }
    w
}

/// One block of L messages.
#[inline(always)]
fn compress<const L: usize>(state: &mut [Wide<L>; 8], w: &mut [Wide<L>; 16]) {
    let [mut a, mut b, mut c, mut d, mut e, mut f, mut g, mut h] = *state;
    // every index is known to the compiler
    macro_rules! round {
        ($i:expr, $a:ident, $b:ident, $c:ident, $d:ident, $e:ident, $f:ident, $g:ident, $h:ident) => {
            if $i >= 16 {
                let (x, y, z) = (w[($i + 1) % 16], w[($i + 14) % 16], w[($i + 9) % 16]);
                w[$i % 16] = each(|l| {
                    let s0 = x[l].rotate_right(7) ^ x[l].rotate_right(18) ^ (x[l] >> 3);
                    let s1 = y[l].rotate_right(17) ^ y[l].rotate_right(19) ^ (y[l] >> 10);
                    w[$i % 16][l].wrapping_add(s0).wrapping_add(z[l]).wrapping_add(s1)
                });
            }
            let t: Wide<L> = each(|l| {
                let s1 = $e[l].rotate_right(6) ^ $e[l].rotate_right(11) ^ $e[l].rotate_right(25);
                let ch = $g[l] ^ ($e[l] & ($f[l] ^ $g[l]));
                $h[l].wrapping_add(K[$i]).wrapping_add(w[$i % 16][l]).wrapping_add(ch).wrapping_add(s1)
            });
            $d = each(|l| $d[l].wrapping_add(t[l]));
            $h = each(|l| {
                let s0 = $a[l].rotate_right(2) ^ $a[l].rotate_right(13) ^ $a[l].rotate_right(22);
                let maj = ($a[l] & $b[l]) | ($c[l] & ($a[l] | $b[l]));
                t[l].wrapping_add(s0).wrapping_add(maj)
            });
        };
    }
    macro_rules! eight {
        ($($i:literal)*) => {
            $(
                round!($i, a, b, c, d, e, f, g, h);
                round!($i + 1, h, a, b, c, d, e, f, g);
                round!($i + 2, g, h, a, b, c, d, e, f);
                round!($i + 3, f, g, h, a, b, c, d, e);
                round!($i + 4, e, f, g, h, a, b, c, d);
                round!($i + 5, d, e, f, g, h, a, b, c);
                round!($i + 6, c, d, e, f, g, h, a, b);
                round!($i + 7, b, c, d, e, f, g, h, a);
            )*
        };
    }
    eight!(0 8 16 24 32 40 48 56);
    for (s, v) in state.iter_mut().zip([a, b, c, d, e, f, g, h]) {
        *s = each(|l| s[l].wrapping_add(v[l]));
    }
}

/// The padded message of one or two blocks, without its number.
struct Message {
    bytes: [u8; 128],
    dice: usize,
    blocks: usize,
}

impl Message {
    fn new(dice: &[u8]) -> Message {
        let mut bytes = [0; 128];
        let length = dice.len() + 8;
        bytes[..dice.len()].copy_from_slice(dice);
        bytes[length] = 0x80;
        let blocks = if length < 56 { 1 } else { 2 };
        bytes[64 * blocks - 8..64 * blocks].copy_from_slice(&(length as u64 * 8).to_be_bytes());
        Message { bytes, dice: dice.len(), blocks }
    }

    /// The digests of L numbers.
    #[inline(always)]
    fn states<const L: usize>(&mut self, numbers: &[u64; L]) -> [Wide<L>; 8] {
        let mut state = START.map(|s| [s; L]);
        let mut words = [[[0; L]; 16]; 2];
        let at = self.dice;
        for l in 0..L {
            self.bytes[at..at + 8].copy_from_slice(&numbers[l].to_be_bytes());
            for (block, words) in self.bytes.chunks_exact(64).zip(&mut words).take(self.blocks) {
                for (b, w) in block.chunks_exact(4).zip(words) {
                    w[l] = u32::from_be_bytes(b.try_into().unwrap());
                }
            }
        }
        for w in &mut words[..self.blocks] {
            compress(&mut state, w);
        }
        state
    }

    /// Turns each number into the first eight bytes of its digest.
    #[inline(always)]
    fn heads<const L: usize>(&mut self, all: &mut [(u64, u32)]) {
        for some in all.chunks_mut(L) {
            let mut numbers = [0; L];
            numbers.iter_mut().zip(some.iter()).for_each(|(n, s)| *n = s.0);
            let state = self.states(&numbers);
            for (l, s) in some.iter_mut().enumerate() {
                s.0 = (state[0][l] as u64) << 32 | state[1][l] as u64;
            }
        }
    }
}

pub fn digest(dice: &[u8], number: u64) -> [u32; 8] {
    Message::new(dice).states(&[number]).map(|w| w[0])
}

#[cfg(target_arch = "x86_64")]
#[target_feature(enable = "avx512f,avx512vl,avx512bw")]
fn heads_512(message: &mut Message, all: &mut [(u64, u32)]) {
    message.heads::<16>(all)
}

#[cfg(target_arch = "x86_64")]
#[target_feature(enable = "avx2")]
fn heads_256(message: &mut Message, all: &mut [(u64, u32)]) {
    message.heads::<8>(all)
}

#[cfg(target_arch = "x86_64")]
#[target_feature(enable = "bmi1,bmi2")]
fn heads_bmi(message: &mut Message, all: &mut [(u64, u32)]) {
    message.heads::<1>(all)
}

/// Turns the number of each pair into the first eight bytes of its ticket.
pub fn heads(dice: &[u8], all: &mut [(u64, u32)], lanes: bool) {
    let mut message = Message::new(dice);
    #[cfg(target_arch = "x86_64")]
    // the processor has what the functions ask for
    unsafe {
        if lanes && is_x86_feature_detected!("avx512vl") && is_x86_feature_detected!("avx512bw") {
            return heads_512(&mut message, all);
        } else if lanes && is_x86_feature_detected!("avx2") {
            return heads_256(&mut message, all);
        } else if is_x86_feature_detected!("bmi1") && is_x86_feature_detected!("bmi2") {
            return heads_bmi(&mut message, all);
        }
    }
    message.heads::<1>(all)
}
