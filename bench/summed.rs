//! Reads a file through a buffer of 64 KiB, adds up the longs of each block and prints how many come to 0: the least that has
//! to be done with an image before it can be told to be sound.
use std::env;
use std::fs::File;
use std::io::{Read, Result};

const BLOCK: usize = 512;

fn sum(block: &[u8]) -> u32 {
    block.chunks_exact(4).fold(0, |sum, long| sum.wrapping_add(u32::from_be_bytes(long.try_into().unwrap())))
}

fn main() -> Result<()> {
    let mut file = File::open(env::args().nth(1).expect("a file"))?;
    let mut piece = [0; 128 * BLOCK];
    let mut settled = 0;
    loop {
        let count = file.read(&mut piece)?;
        if count == 0 {
            break;
        }
        settled += piece[..count].chunks_exact(BLOCK).filter(|block| sum(block) == 0).count();
    }
    println!("{settled}");
    Ok(())
}
