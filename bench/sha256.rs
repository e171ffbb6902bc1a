// Measures the proved SHA-256 against the same algorithm in plain Rust, on the same bytes in one run.
// Three plain versions: with the whole schedule of 64 words laid out first; with sixteen words at a time; and the very form of
// the proved one, with the rounds written out. `bench/run` builds it at -O3 and links the proved one; all must give the same digests.
use std::hint::black_box;
use std::time::Instant;

unsafe extern "C" {
    // of crates/exports: the highest eight bytes of the address
    fn prolly_sha256_high(bytes: *const u8, length: usize) -> u64;
}

static K: [u32; 64] = [
    0x428a2f98, 0x71374491, 0xb5c0fbcf, 0xe9b5dba5, 0x3956c25b, 0x59f111f1, 0x923f82a4, 0xab1c5ed5,
    0xd807aa98, 0x12835b01, 0x243185be, 0x550c7dc3, 0x72be5d74, 0x80deb1fe, 0x9bdc06a7, 0xc19bf174,
    0xe49b69c1, 0xefbe4786, 0x0fc19dc6, 0x240ca1cc, 0x2de92c6f, 0x4a7484aa, 0x5cb0a9dc, 0x76f988da,
    0x983e5152, 0xa831c66d, 0xb00327c8, 0xbf597fc7, 0xc6e00bf3, 0xd5a79147, 0x06ca6351, 0x14292967,
    0x27b70a85, 0x2e1b2138, 0x4d2c6dfc, 0x53380d13, 0x650a7354, 0x766a0abb, 0x81c2c92e, 0x92722c85,
    0xa2bfe8a1, 0xa81a664b, 0xc24b8b70, 0xc76c51a3, 0xd192e819, 0xd6990624, 0xf40e3585, 0x106aa070,
    0x19a4c116, 0x1e376c08, 0x2748774c, 0x34b0bcb5, 0x391c0cb3, 0x4ed8aa4a, 0x5b9cca4f, 0x682e6ff3,
    0x748f82ee, 0x78a5636f, 0x84c87814, 0x8cc70208, 0x90befffa, 0xa4506ceb, 0xbef9a3f7, 0xc67178f2,
];

fn load(block: &[u8; 64]) -> [u32; 16] {
    let mut w = [0u32; 16];
    for (word, bytes) in w.iter_mut().zip(block.chunks_exact(4)) {
        *word = u32::from_be_bytes(bytes.try_into().unwrap());
    }
    w
}

fn small_sigma0(x: u32) -> u32 {
    x.rotate_right(7) ^ x.rotate_right(18) ^ (x >> 3)
}

fn small_sigma1(x: u32) -> u32 {
    x.rotate_right(17) ^ x.rotate_right(19) ^ (x >> 10)
}

fn round(v: &mut [u32; 8], k: u32, w: u32) {
    let [a, b, c, d, e, f, g, h] = *v;
    let big1 = e.rotate_right(6) ^ e.rotate_right(11) ^ e.rotate_right(25);
    let t1 = h.wrapping_add(big1).wrapping_add((e & f) ^ (!e & g)).wrapping_add(k).wrapping_add(w);
    let big0 = a.rotate_right(2) ^ a.rotate_right(13) ^ a.rotate_right(22);
    let t2 = big0.wrapping_add((a & b) ^ (a & c) ^ (b & c));
    *v = [t1.wrapping_add(t2), a, b, c, d.wrapping_add(t1), e, f, g];
}

fn add(hash: &mut [u32; 8], v: [u32; 8]) {
    for (h, x) in hash.iter_mut().zip(v) {
        *h = h.wrapping_add(x);
    }
}

fn whole_schedule(hash: &mut [u32; 8], block: &[u8; 64]) {
    let mut w = [0u32; 64];
    w[..16].copy_from_slice(&load(block));
    for t in 16..64 {
        w[t] = small_sigma1(w[t - 2]).wrapping_add(w[t - 7]).wrapping_add(small_sigma0(w[t - 15])).wrapping_add(w[t - 16]);
    }
    let mut v = *hash;
    for t in 0..64 {
        round(&mut v, K[t], w[t]);
    }
    add(hash, v);
}

fn sixteen_words(hash: &mut [u32; 8], block: &[u8; 64]) {
    let mut w = load(block);
    let mut v = *hash;
    for t in 0..64 {
        if t >= 16 {
            w[t % 16] = small_sigma1(w[(t - 2) % 16])
                .wrapping_add(w[(t - 7) % 16])
                .wrapping_add(small_sigma0(w[(t - 15) % 16]))
                .wrapping_add(w[t % 16]);
        }
        round(&mut v, K[t], w[t % 16]);
    }
    add(hash, v);
}

fn short_round(v: &mut [u32; 8], k: u32, w: u32) {
    let [a, b, c, d, e, f, g, h] = *v;
    let big1 = e.rotate_right(6) ^ e.rotate_right(11) ^ e.rotate_right(25);
    let t1 = h.wrapping_add(big1).wrapping_add(((f ^ g) & e) ^ g).wrapping_add(k).wrapping_add(w);
    let big0 = a.rotate_right(2) ^ a.rotate_right(13) ^ a.rotate_right(22);
    let t2 = big0.wrapping_add(((a ^ b) & (b ^ c)) ^ b);
    *v = [t1.wrapping_add(t2), a, b, c, d.wrapping_add(t1), e, f, g];
}

macro_rules! sixteen {
    ($round:ident) => {
        $round!(0); $round!(1); $round!(2); $round!(3); $round!(4); $round!(5); $round!(6); $round!(7);
        $round!(8); $round!(9); $round!(10); $round!(11); $round!(12); $round!(13); $round!(14); $round!(15);
    };
}

fn written_out(hash: &mut [u32; 8], block: &[u8; 64]) {
    let mut w = load(block);
    let mut v = *hash;
    macro_rules! first {
        ($p:expr) => { short_round(&mut v, K[$p], w[$p]) };
    }
    sixteen!(first);
    for group in 1..4 {
        macro_rules! later {
            ($p:expr) => {
                w[$p] = small_sigma1(w[($p + 14) % 16])
                    .wrapping_add(w[($p + 9) % 16])
                    .wrapping_add(small_sigma0(w[($p + 1) % 16]))
                    .wrapping_add(w[$p]);
                short_round(&mut v, K[16 * group + $p], w[$p])
            };
        }
        sixteen!(later);
    }
    add(hash, v);
}

fn plain(data: &[u8], compress: impl Fn(&mut [u32; 8], &[u8; 64])) -> u64 {
    let mut hash = [0x6a09e667, 0xbb67ae85, 0x3c6ef372, 0xa54ff53a, 0x510e527f, 0x9b05688c, 0x1f83d9ab, 0x5be0cd19];
    let mut blocks = data.chunks_exact(64);
    for block in &mut blocks {
        compress(&mut hash, block.try_into().unwrap());
    }
    let rest = blocks.remainder();
    let mut last = [0u8; 128];
    last[..rest.len()].copy_from_slice(rest);
    last[rest.len()] = 0x80;
    let end = if rest.len() < 56 { 64 } else { 128 };
    last[end - 8..end].copy_from_slice(&(data.len() as u64).wrapping_mul(8).to_be_bytes());
    for block in last[..end].chunks_exact(64) {
        compress(&mut hash, block.try_into().unwrap());
    }
    u64::from(hash[0]) << 32 | u64::from(hash[1])
}

fn proved(data: &[u8]) -> u64 {
    unsafe { prolly_sha256_high(data.as_ptr(), data.len()) }
}

// Megabytes a second over the whole of `data`, cut into pieces, and all digests folded into one number.
fn measure(data: &[u8], size: usize, digest: impl Fn(&[u8]) -> u64) -> (f64, u64) {
    let start = Instant::now();
    let mut all = 0u64;
    for piece in data.chunks_exact(size) {
        all = all.rotate_left(1) ^ digest(black_box(piece));
    }
    let bytes = data.len() / size * size;
    (bytes as f64 / start.elapsed().as_secs_f64() / 1e6, all)
}

fn main() {
    let mut data = vec![0u8; 32 << 20];
    let mut x = 1u32;
    for byte in data.iter_mut() {
        x = x.wrapping_mul(1664525).wrapping_add(1013904223);
        *byte = (x >> 24) as u8;
    }
    println!("{:>10} {:>9} {:>9} {:>9} {:>9} {:>9}", "bytes", "proved", "rust 64", "rust 16", "written", "ratio");
    for size in [64, 512, 2488, data.len()] {
        // the best of seven turns of each, taken in turn, so that a busy moment hits all alike
        let mut best = [0f64; 4];
        for _ in 0..7 {
            let turn = [
                measure(&data, size, proved),
                measure(&data, size, |piece| plain(piece, whole_schedule)),
                measure(&data, size, |piece| plain(piece, sixteen_words)),
                measure(&data, size, |piece| plain(piece, written_out)),
            ];
            assert!(turn.iter().all(|(_, all)| *all == turn[0].1), "the digests differ at {size} bytes");
            for (b, (speed, _)) in best.iter_mut().zip(turn) {
                *b = b.max(speed);
            }
        }
        let ratio = best[0] / best[1].max(best[2]).max(best[3]);
        println!("{size:>10} {:>9.0} {:>9.0} {:>9.0} {:>9.0} {ratio:>9.2}", best[0], best[1], best[2], best[3]);
    }
    println!("in MB/s; ratio: the proved one to the fastest of the three in plain Rust");
}
