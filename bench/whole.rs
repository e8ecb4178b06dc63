//! Reads a file whole into memory by Rust's own `fs::read`, and looks at none of its bytes: what every program pays that has an
//! image in its memory. It prints how many bytes there are.
use std::{env, fs};

fn main() {
    println!("{}", fs::read(env::args().nth(1).unwrap()).unwrap().len());
}
