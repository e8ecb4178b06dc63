//! Writes an image that is full: `full_image ofs|ffs BLOCKS FILE`; or one with so many empty files in its root, where a number
//! of ENTRIES stands behind these words. It prints how many files there are and how many bytes they hold.
//!
//! Each directory has 46 files, every tenth of 100 KiB and the others of 600 bytes, and up to four directories. The last
//! files are cut to the blocks that are left.
use std::{env, fs};

const BLOCK: usize = 512;

const PAGE_BITS: usize = 4_064;

/// Secondary types, as a long has them.
const DIRECTORY: u32 = 2;
const FILE: u32 = -3i32 as u32;

/// The bytes of a data block, and those in front of a file's.
struct Layout {
    head: usize,
    room: usize,
}

struct Disk {
    bytes: Vec<u8>,
    layout: Layout,
    root: usize,
    pages: usize,
    /// The blocks that are not in use, the lowest last.
    free: Vec<usize>,
    /// The blocks that have their sum in long 5.
    summed: Vec<usize>,
}

impl Disk {
    fn blank(ofs: bool, blocks: usize) -> Disk {
        let root = (blocks + 1) / 2;
        let pages = (blocks - 2).div_ceil(PAGE_BITS);
        let behind = root + pages + 1;
        let mut disk = Disk {
            bytes: vec![0; BLOCK * blocks],
            layout: if ofs { Layout { head: 24, room: 488 } } else { Layout { head: 0, room: 512 } },
            root,
            pages,
            free: (2..root).chain(behind..blocks).rev().collect(),
            summed: vec![root],
        };
        disk.bytes[..4].copy_from_slice(&[b'D', b'O', b'S', u8::from(!ofs)]);
        disk.set(root, 0, 2);
        disk.set(root, 3, 72);
        disk.set(root, 78, u32::MAX);
        for page in 0..pages {
            disk.set(root, 79 + page, (root + 1 + page) as u32);
        }
        disk.set_name(root, "Full");
        disk.set(root, 127, 1);
        disk
    }

    fn long(&self, block: usize, i: usize) -> u32 {
        let at = BLOCK * block + 4 * i;
        u32::from_be_bytes(self.bytes[at..at + 4].try_into().unwrap())
    }

    fn set(&mut self, block: usize, i: usize, value: u32) {
        let at = BLOCK * block + 4 * i;
        self.bytes[at..at + 4].copy_from_slice(&value.to_be_bytes());
    }

    fn set_name(&mut self, block: usize, name: &str) {
        let at = BLOCK * block + 432;
        self.bytes[at] = name.len() as u8;
        self.bytes[at + 1..at + 1 + name.len()].copy_from_slice(name.as_bytes());
    }

    /// Sets a long so that the longs of the block add up to 0.
    fn settle(&mut self, block: usize, field: usize) {
        self.set(block, field, 0);
        let sum = (0..128).fold(0u32, |sum, i| sum.wrapping_add(self.long(block, i)));
        self.set(block, field, sum.wrapping_neg());
    }

    /// The lowest free block. Unless it holds nothing but data, it has a sum.
    fn take(&mut self, has_sum: bool) -> usize {
        let block = self.free.pop().unwrap();
        if has_sum {
            self.summed.push(block);
        }
        block
    }

    /// Makes an entry, the last one in the chain of its name's slot.
    fn add_entry(&mut self, dir: usize, name: &str, kind: u32) -> usize {
        let entry = self.take(true);
        self.set(entry, 0, 2);
        self.set(entry, 1, entry as u32);
        self.set_name(entry, name);
        self.set(entry, 125, dir as u32);
        self.set(entry, 127, kind);
        let (mut holder, mut i) = (dir, 6 + slot(name));
        while self.long(holder, i) != 0 {
            (holder, i) = (self.long(holder, i) as usize, 124);
        }
        self.set(holder, i, entry as u32);
        entry
    }

    /// The blocks of a file: its header, its data blocks, and a pointer block for each 72 of them but the first.
    fn cost(&self, size: usize) -> usize {
        let data = size.div_ceil(self.layout.room);
        1 + data + data.div_ceil(72).saturating_sub(1)
    }

    /// The size of a file that is cut to the blocks that are left.
    fn fitting(&self, size: usize) -> usize {
        let mut size = size;
        while self.cost(size) > self.free.len() {
            size = size.saturating_sub(self.layout.room);
        }
        size
    }

    fn add_file(&mut self, dir: usize, name: &str, size: usize) {
        let file = self.add_entry(dir, name, FILE);
        self.set(file, 81, size as u32);
        let mut holder = file;
        let mut before = file;
        for i in 0..size.div_ceil(self.layout.room) {
            if i > 0 && i % 72 == 0 {
                holder = self.add_extension(file, holder);
            }
            let block = self.add_data(file, before, i, size);
            self.set(holder, 2, (i % 72 + 1) as u32);
            self.set(holder, 77 - i % 72, block as u32);
            before = block;
        }
    }

    fn add_extension(&mut self, file: usize, holder: usize) -> usize {
        let block = self.take(true);
        self.set(holder, 126, block as u32);
        self.set(block, 0, 16);
        self.set(block, 1, block as u32);
        self.set(block, 125, file as u32);
        self.set(block, 127, FILE);
        block
    }

    /// Makes data block `i` of a file. The header leads to the first one, and in OFS each one to the next.
    fn add_data(&mut self, file: usize, before: usize, i: usize, size: usize) -> usize {
        let Layout { head, room } = self.layout;
        let block = self.take(head > 0);
        let held = room.min(size - room * i);
        if head > 0 || i == 0 {
            self.set(before, 4, block as u32);
        }
        if head > 0 {
            self.set(block, 0, 8);
            self.set(block, 1, file as u32);
            self.set(block, 2, (i + 1) as u32);
            self.set(block, 3, held as u32);
        }
        let start = BLOCK * block + head;
        for (k, byte) in self.bytes[start..start + held].iter_mut().enumerate() {
            *byte = (room * i + k) as u8;
        }
        block
    }

    /// Writes the bitmap, in which a set bit is a free block, and all sums.
    fn finish(&mut self) {
        for block in self.free.clone() {
            let (page, bit) = (self.root + 1 + (block - 2) / PAGE_BITS, (block - 2) % PAGE_BITS);
            let map = self.long(page, 1 + bit / 32) | 1 << (bit % 32);
            self.set(page, 1 + bit / 32, map);
        }
        for page in 0..self.pages {
            self.settle(self.root + 1 + page, 0);
        }
        for block in std::mem::take(&mut self.summed) {
            self.settle(block, 5);
        }
    }
}

/// The slot of a name in its directory's table.
fn slot(name: &str) -> usize {
    let hash = |hash, byte: u8| (13 * hash + usize::from(byte.to_ascii_uppercase())) % 2048;
    name.bytes().fold(name.len(), hash) % 72
}

/// Makes directories and files until no block is free, and answers the sizes of the files.
fn fill(disk: &mut Disk) -> Vec<usize> {
    let mut dirs = vec![disk.root];
    let mut sizes = Vec::new();
    while !disk.free.is_empty() {
        if sizes.len() == 46 * dirs.len() {
            let parent = dirs[(dirs.len() - 1) / 4];
            dirs.push(disk.add_entry(parent, &format!("Directory {}", dirs.len()), DIRECTORY));
            continue;
        }
        let size = disk.fitting(if sizes.len() % 10 == 0 { 102_400 } else { 600 });
        disk.add_file(dirs[dirs.len() - 1], &format!("File {}", sizes.len()), size);
        sizes.push(size);
    }
    sizes
}

/// Makes empty files in the root, and answers their sizes.
fn fill_root(disk: &mut Disk, entries: usize) -> Vec<usize> {
    for n in 0..entries {
        disk.add_file(disk.root, &format!("File {n}"), 0);
    }
    vec![0; entries]
}

fn main() {
    let words: Vec<String> = env::args().collect();
    let mut disk = Disk::blank(words[1] == "ofs", words[2].parse().unwrap());
    let sizes = match words.get(4) {
        Some(entries) => fill_root(&mut disk, entries.parse().unwrap()),
        None => fill(&mut disk),
    };
    disk.finish();
    fs::write(&words[3], &disk.bytes).unwrap();
    println!("{} files, {} bytes", sizes.len(), sizes.iter().sum::<usize>());
}
