//! SHA-256 (FIPS 180-4), for the check of the seven files.

/// The first 64 primes' cube roots (and 8 square roots) give the constants:
/// the first 32 bits of the fraction.
fn root(prime: u64, cube: bool) -> u32 {
    // The greatest r with r^k <= prime * 2^(32 k), by bisection.
    let (mut low, mut high) = (0u128, 1u128 << 40);
    while high - low > 1 {
        let r = (low + high) / 2;
        // r < 2^40, so r^3 < 2^120.
        let fits = if cube { r * r * r <= (prime as u128) << 96 } else { r * r <= (prime as u128) << 64 };
        if fits {
            low = r;
        } else {
            high = r;
        }
    }
    low as u32
}

fn primes() -> impl Iterator<Item = u64> {
    (2..).filter(|n| (2..*n).all(|d| n % d != 0))
}

/// The digest of `text`, as 64 hexadecimal digits.
pub fn hex(text: &[u8]) -> String {
    let k: Vec<u32> = primes().take(64).map(|p| root(p, true)).collect();
    let mut h: Vec<u32> = primes().take(8).map(|p| root(p, false)).collect();
    let mut padded = text.to_vec();
    padded.push(0x80);
    while padded.len() % 64 != 56 {
        padded.push(0);
    }
    padded.extend((text.len() as u64 * 8).to_be_bytes());
    for block in padded.chunks_exact(64) {
        let mut w: Vec<u32> =
            block.chunks_exact(4).map(|b| u32::from_be_bytes([b[0], b[1], b[2], b[3]])).collect();
        for i in 16..64 {
            let (x, y) = (w[i - 15], w[i - 2]);
            let s0 = x.rotate_right(7) ^ x.rotate_right(18) ^ x >> 3;
            let s1 = y.rotate_right(17) ^ y.rotate_right(19) ^ y >> 10;
            w.push(w[i - 16].wrapping_add(s0).wrapping_add(w[i - 7]).wrapping_add(s1));
        }
        let mut v = h.clone();
        for i in 0..64 {
            let (a, e) = (v[0], v[4]);
            let s1 = e.rotate_right(6) ^ e.rotate_right(11) ^ e.rotate_right(25);
            let chosen = (e & v[5]) ^ (!e & v[6]);
            let t1 = v[7].wrapping_add(s1).wrapping_add(chosen).wrapping_add(k[i]).wrapping_add(w[i]);
            let s0 = a.rotate_right(2) ^ a.rotate_right(13) ^ a.rotate_right(22);
            let t2 = s0.wrapping_add((a & v[1]) ^ (a & v[2]) ^ (v[1] & v[2]));
            v.rotate_right(1);
            v[0] = t1.wrapping_add(t2);
            v[4] = v[4].wrapping_add(t1);
        }
        for (x, y) in h.iter_mut().zip(v) {
            *x = x.wrapping_add(y);
        }
    }
    h.iter().map(|x| format!("{x:08x}")).collect()
}
