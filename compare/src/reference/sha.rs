//! SHA-256 (FIPS 180-4), portable and scalar.

pub type Id = [u8; 32];

pub const K: [u32; 64] = [
    0x428a2f98, 0x71374491, 0xb5c0fbcf, 0xe9b5dba5, 0x3956c25b, 0x59f111f1, 0x923f82a4, 0xab1c5ed5, 0xd807aa98,
    0x12835b01, 0x243185be, 0x550c7dc3, 0x72be5d74, 0x80deb1fe, 0x9bdc06a7, 0xc19bf174, 0xe49b69c1, 0xefbe4786,
    0x0fc19dc6, 0x240ca1cc, 0x2de92c6f, 0x4a7484aa, 0x5cb0a9dc, 0x76f988da, 0x983e5152, 0xa831c66d, 0xb00327c8,
    0xbf597fc7, 0xc6e00bf3, 0xd5a79147, 0x06ca6351, 0x14292967, 0x27b70a85, 0x2e1b2138, 0x4d2c6dfc, 0x53380d13,
    0x650a7354, 0x766a0abb, 0x81c2c92e, 0x92722c85, 0xa2bfe8a1, 0xa81a664b, 0xc24b8b70, 0xc76c51a3, 0xd192e819,
    0xd6990624, 0xf40e3585, 0x106aa070, 0x19a4c116, 0x1e376c08, 0x2748774c, 0x34b0bcb5, 0x391c0cb3, 0x4ed8aa4a,
    0x5b9cca4f, 0x682e6ff3, 0x748f82ee, 0x78a5636f, 0x84c87814, 0x8cc70208, 0x90befffa, 0xa4506ceb, 0xbef9a3f7,
    0xc67178f2,
];

pub const H0: [u32; 8] =
    [0x6a09e667, 0xbb67ae85, 0x3c6ef372, 0xa54ff53a, 0x510e527f, 0x9b05688c, 0x1f83d9ab, 0x5be0cd19];

const fn s0(x: u32) -> u32 {
    x.rotate_right(7) ^ x.rotate_right(18) ^ (x >> 3)
}
const fn s1(x: u32) -> u32 {
    x.rotate_right(17) ^ x.rotate_right(19) ^ (x >> 10)
}

/// The padding block of every 192-byte message is the same: its whole schedule,
/// with the round constants already added, is a constant.
pub const PAD_KW: [u32; 64] = {
    let mut w = [0u32; 64];
    w[0] = 0x8000_0000;
    w[15] = 192 * 8;
    let mut t = 16;
    while t < 64 {
        w[t] = s1(w[t - 2]).wrapping_add(w[t - 7]).wrapping_add(s0(w[t - 15])).wrapping_add(w[t - 16]);
        t += 1;
    }
    let mut t = 0;
    while t < 64 {
        w[t] = w[t].wrapping_add(K[t]);
        t += 1;
    }
    w
};

macro_rules! round {
    ($a:ident,$b:ident,$c:ident,$d:ident,$e:ident,$f:ident,$g:ident,$h:ident,$kw:expr) => {{
        let t1 = $h
            .wrapping_add($e.rotate_right(6) ^ $e.rotate_right(11) ^ $e.rotate_right(25))
            .wrapping_add($g ^ ($e & ($f ^ $g)))
            .wrapping_add($kw);
        let t2 =
            ($a.rotate_right(2) ^ $a.rotate_right(13) ^ $a.rotate_right(22)).wrapping_add(($a & $b) ^ ($c & ($a ^ $b)));
        $d = $d.wrapping_add(t1);
        $h = t1.wrapping_add(t2);
    }};
}

macro_rules! rounds16 {
    ($a:ident,$b:ident,$c:ident,$d:ident,$e:ident,$f:ident,$g:ident,$h:ident,$kw:expr) => {{
        round!($a, $b, $c, $d, $e, $f, $g, $h, $kw(0));
        round!($h, $a, $b, $c, $d, $e, $f, $g, $kw(1));
        round!($g, $h, $a, $b, $c, $d, $e, $f, $kw(2));
        round!($f, $g, $h, $a, $b, $c, $d, $e, $kw(3));
        round!($e, $f, $g, $h, $a, $b, $c, $d, $kw(4));
        round!($d, $e, $f, $g, $h, $a, $b, $c, $kw(5));
        round!($c, $d, $e, $f, $g, $h, $a, $b, $kw(6));
        round!($b, $c, $d, $e, $f, $g, $h, $a, $kw(7));
        round!($a, $b, $c, $d, $e, $f, $g, $h, $kw(8));
        round!($h, $a, $b, $c, $d, $e, $f, $g, $kw(9));
        round!($g, $h, $a, $b, $c, $d, $e, $f, $kw(10));
        round!($f, $g, $h, $a, $b, $c, $d, $e, $kw(11));
        round!($e, $f, $g, $h, $a, $b, $c, $d, $kw(12));
        round!($d, $e, $f, $g, $h, $a, $b, $c, $kw(13));
        round!($c, $d, $e, $f, $g, $h, $a, $b, $kw(14));
        round!($b, $c, $d, $e, $f, $g, $h, $a, $kw(15));
    }};
}

#[inline(always)]
fn add8(s: &mut [u32; 8], v: [u32; 8]) {
    for i in 0..8 {
        s[i] = s[i].wrapping_add(v[i]);
    }
}

#[inline(always)]
fn compress_in(state: &mut [u32; 8], block: &[u8; 64]) {
    let mut w = [0u32; 16];
    for i in 0..16 {
        w[i] = u32::from_be_bytes([block[4 * i], block[4 * i + 1], block[4 * i + 2], block[4 * i + 3]]);
    }
    let [mut a, mut b, mut c, mut d, mut e, mut f, mut g, mut h] = *state;
    rounds16!(a, b, c, d, e, f, g, h, |i: usize| K[i].wrapping_add(w[i]));
    let mut t = 16;
    while t < 64 {
        macro_rules! kw {
            ($i:expr) => {{
                let i: usize = $i;
                w[i] = w[i]
                    .wrapping_add(s1(w[(i + 14) & 15]))
                    .wrapping_add(w[(i + 9) & 15])
                    .wrapping_add(s0(w[(i + 1) & 15]));
                K[t + i].wrapping_add(w[i])
            }};
        }
        rounds16!(a, b, c, d, e, f, g, h, |i: usize| kw!(i));
        t += 16;
    }
    add8(state, [a, b, c, d, e, f, g, h]);
}

#[inline(never)]
pub fn compress(state: &mut [u32; 8], block: &[u8; 64]) {
    compress_in(state, block)
}

#[inline(always)]
fn compress_pad(state: &mut [u32; 8]) {
    let [mut a, mut b, mut c, mut d, mut e, mut f, mut g, mut h] = *state;
    let mut t = 0;
    while t < 64 {
        rounds16!(a, b, c, d, e, f, g, h, |i: usize| PAD_KW[t + i]);
        t += 16;
    }
    add8(state, [a, b, c, d, e, f, g, h]);
}

#[inline(always)]
fn to_bytes(s: &[u32; 8]) -> Id {
    let mut o = [0u8; 32];
    for i in 0..8 {
        o[4 * i..4 * i + 4].copy_from_slice(&s[i].to_be_bytes());
    }
    o
}

#[inline(always)]
fn block(e: &[u8; 192], i: usize) -> &[u8; 64] {
    e[64 * i..64 * i + 64].try_into().unwrap()
}

/// The id of a 192-byte event, portable.
#[inline(always)]
fn id_in(e: &[u8; 192]) -> Id {
    let mut s = H0;
    for i in 0..3 {
        compress_in(&mut s, block(e, i));
    }
    compress_pad(&mut s);
    to_bytes(&s)
}

#[inline(never)]
pub fn id_portable(e: &[u8; 192]) -> Id {
    id_in(e)
}

/// Any message, for the FIPS vectors.
pub fn sha256(m: &[u8]) -> Id {
    let mut s = H0;
    let mut it = m.chunks_exact(64);
    for b in &mut it {
        compress(&mut s, b.try_into().unwrap());
    }
    let r = it.remainder();
    let mut last = [0u8; 128];
    last[..r.len()].copy_from_slice(r);
    last[r.len()] = 0x80;
    let n = if r.len() < 56 { 64 } else { 128 };
    last[n - 8..n].copy_from_slice(&((m.len() as u64).wrapping_mul(8)).to_be_bytes());
    for b in last[..n].chunks_exact(64) {
        compress(&mut s, b.try_into().unwrap());
    }
    to_bytes(&s)
}

// ---------------------------------------------------------------- the choice

/// How ids are computed. Every way gives the same ids; the unit is generic in it.
pub trait Hasher {
    /// Whether many at once are cheaper than one by one.
    const BATCH: bool = false;
    fn id(e: &[u8; 192]) -> Id;
    /// Ids of `events` (a multiple of 192 bytes long) into the front of `out`.
    fn ids(events: &[u8], out: &mut [Id]) {
        for (e, o) in events.chunks_exact(192).zip(out) {
            *o = Self::id(e.try_into().unwrap());
        }
    }
}

pub struct Portable;
impl Hasher for Portable {
    #[inline(always)]
    fn id(e: &[u8; 192]) -> Id {
        id_portable(e)
    }
}

#[cfg(test)]
mod tests {
    use super::*;

    fn hex(b: &[u8]) -> String {
        b.iter().map(|x| format!("{x:02x}")).collect()
    }

    #[test]
    fn fips_vectors() {
        assert_eq!(hex(&sha256(b"")), "e3b0c44298fc1c149afbf4c8996fb92427ae41e4649b934ca495991b7852b855");
        assert_eq!(hex(&sha256(b"abc")), "ba7816bf8f01cfea414140de5dae2223b00361a396177a9cb410ff61f20015ad");
        assert_eq!(
            hex(&sha256(b"abcdbcdecdefdefgefghfghighijhijkijkljklmklmnlmnomnopnopq")),
            "248d6a61d20638b8e5c026930c3e6039a33ce45964ff2167f6ecedd419db06c1"
        );
        assert_eq!(
            hex(&sha256(b"abcdefghbcdefghicdefghijdefghijkefghijklfghijklmghijklmnhijklmnoijklmnopjklmnopqklmnopqrlmnopqrsmnopqrstnopqrstu")),
            "cf5b16a778af8380036ce59e7b0492370b249b11e8f07a51afac45037afee9d1"
        );
        assert_eq!(
            hex(&sha256(&vec![b'a'; 1_000_000])),
            "cdc76e5c9914fb9281a1c7e284d73e67f1809a48a497200e046d39ccc7112cd0"
        );
    }
}
