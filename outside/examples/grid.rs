//! A grid from start to end: uniform start, one leaf refined, written to a file, read back, and dealt out to three machines. `examples/grid.c`
//! does the same from C and prints the same lines.

use gwerniloc::{adapt, read_file, shares, uniform, write_file, Refusal};

const ROOTS: u16 = 2;
const SHARES: u16 = 3;

/// A list: so many leaves at the front of three columns.
#[derive(PartialEq)]
struct List {
    count: usize,
    root: [u16; 64],
    level: [u8; 64],
    position: [u64; 64],
}

impl List {
    fn empty() -> Self {
        List { count: 0, root: [0; 64], level: [0; 64], position: [0; 64] }
    }

    fn columns(&self) -> (&[u16], &[u8], &[u64]) {
        (&self.root[..self.count], &self.level[..self.count], &self.position[..self.count])
    }
}

fn print_shares(l: &List, boundaries: &[u32]) {
    for (s, pair) in boundaries.windows(2).enumerate() {
        let (from, to) = (pair[0] as usize, pair[1] as usize);
        print!("share {s}: {} leaves", to - from);
        if from < to {
            print!(", from root {} level {} position {}", l.root[from], l.level[from], l.position[from]);
        }
        println!();
    }
}

fn main() -> Result<(), Refusal> {
    let mut start = List::empty();
    start.count = uniform(ROOTS, 1, &mut start.root, &mut start.level, &mut start.position)? as usize;

    let mut marks = vec![0; start.count];
    marks[2] = 1;
    let mut grid = List::empty();
    let (root, level, position) = start.columns();
    grid.count =
        adapt(ROOTS, root, level, position, &marks, &mut grid.root, &mut grid.level, &mut grid.position)? as usize;

    let mut file = [0; 64];
    let (root, level, position) = grid.columns();
    let size = write_file(ROOTS, root, level, position, &mut file)? as usize;
    print!("{} leaves in {size} bytes:", grid.count);
    file[..size].iter().for_each(|b| print!(" {b:02x}"));
    println!();

    let mut loaded = List::empty();
    let read = read_file(&file[..size], &mut loaded.root, &mut loaded.level, &mut loaded.position)?;
    loaded.count = read.leaves as usize;
    println!("read back: {} roots, the same leaves: {}", read.roots, if loaded == grid { "yes" } else { "no" });

    let mut boundaries = [0; SHARES as usize + 1];
    let (root, level, position) = loaded.columns();
    shares(ROOTS, SHARES, root, level, position, &vec![1; loaded.count], &mut boundaries)?;
    print_shares(&loaded, &boundaries);

    // A file that breaks off is refused, and the columns stay as they are.
    if let Err(refusal) = read_file(&file[..size - 1], &mut loaded.root, &mut loaded.level, &mut loaded.position) {
        println!("read of a cut file: {refusal}");
    }
    assert!(loaded == grid);
    Ok(())
}
