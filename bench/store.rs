// Puts and gets so many chunks of 456 bytes in Rust's HashMap, with the keys and the work of crates/store_bench: a put looks for the key,
// and takes a copy of the chunk where it is absent; a get copies the chunk out. Prints nanoseconds. The second argument says which hash
// the map has: `own`, or `word` for the key's first word, so that it does not hash. One map a process, so that none finds
// memory that another has touched already.
use std::collections::HashMap;
use std::collections::hash_map::RandomState;
use std::hash::{BuildHasher, BuildHasherDefault, Hasher};
use std::hint::black_box;
use std::time::Instant;

const CHUNK: usize = 456;

fn chunk_of(number: u64) -> [u8; CHUNK] {
    let mut chunk = [0u8; CHUNK];
    chunk[0..8].copy_from_slice(&number.wrapping_mul(0x9e37_79b9_7f4a_7c15).to_be_bytes());
    chunk[8..16].copy_from_slice(&number.wrapping_mul(0xd1b5_4a32_d192_ed03).to_be_bytes());
    chunk
}

fn key_of(chunk: &[u8; CHUNK]) -> [u8; 32] {
    chunk[0..32].try_into().unwrap()
}

#[derive(Default)]
struct FirstWord(u64);

impl Hasher for FirstWord {
    fn finish(&self) -> u64 {
        self.0
    }

    fn write(&mut self, bytes: &[u8]) {
        if let Some(word) = bytes.first_chunk::<8>() {
            self.0 = u64::from_be_bytes(*word);
        }
    }

    fn write_usize(&mut self, _: usize) {}
}

fn run<S: BuildHasher + Default>(count: u64) -> (u128, u128) {
    let mut map: HashMap<[u8; 32], Vec<u8>, S> = HashMap::default();
    let start = Instant::now();
    for number in 0..count {
        let chunk = chunk_of(number);
        let key = key_of(&chunk);
        if !map.contains_key(&key) {
            map.insert(key, chunk.to_vec());
        }
    }
    let put = start.elapsed().as_nanos();
    let start = Instant::now();
    let mut buffer = [0u8; CHUNK];
    for number in 0..count {
        if let Some(chunk) = map.get(&key_of(&chunk_of(number))) {
            buffer[..chunk.len()].copy_from_slice(chunk);
            black_box(&buffer);
        }
    }
    (put, start.elapsed().as_nanos())
}

fn main() {
    let count: u64 = std::env::args().nth(1).unwrap().parse().unwrap();
    let (put, get) = match std::env::args().nth(2).unwrap().as_str() {
        "word" => run::<BuildHasherDefault<FirstWord>>(count),
        _ => run::<RandomState>(count),
    };
    println!("{put} {get}");
}
