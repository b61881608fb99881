//! Nanoseconds a call, for lists a leaf, for sections a point and for orders a line, proved and plain, in one run:
//! `cargo run --release --bin bench`. Not a test: nothing can fail.
//!
//! Both sides are called the same way, by value or with lent columns, and never inlined.

mod elements;
mod lists;
mod orders;
mod points;
mod section;

/// The generator splitmix64.
struct Random(u64);

impl Random {
    fn next(&mut self) -> u64 {
        self.0 = self.0.wrapping_add(0x9e37_79b9_7f4a_7c15);
        let mut v = self.0;
        v = (v ^ (v >> 30)).wrapping_mul(0xbf58_476d_1ce4_e5b9);
        v = (v ^ (v >> 27)).wrapping_mul(0x94d0_49bb_1331_11eb);
        v ^ (v >> 31)
    }
}

fn main() {
    let mut random = Random(1);
    elements::rows(&mut random);
    points::rows(&mut random);
    println!();
    lists::rows(&mut random);
    println!();
    section::rows(&mut random);
    println!();
    orders::rows(&mut random);
}
