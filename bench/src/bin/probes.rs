//! How well the lent table's hash spreads the configurations of real rooms: the mean and the greatest
//! number of places of the index that a lookup of a member reads, with the table filled to 50, 90 and
//! 100 per cent. The hash and the index are those of crates/table/src/finding.rs.

use bench::native::configurations;
use bench::rooms;

fn hash(low: u64, high: u64) -> u64 {
    let a = (low % (1 << 32)) * 2654435769;
    let b = (low >> 32) * 2246822519;
    let c = (high % (1 << 32)) * 3266489917;
    let d = (high >> 32) * 668265263;
    let h = a ^ b ^ c ^ d;
    (h ^ h >> 32) % (1 << 32)
}

struct Lengths {
    mean: f64,
    greatest: usize,
}

fn lengths(keys: &[(u64, u64)], places: usize) -> Lengths {
    let mut index = vec![usize::MAX; places * 2];
    let (mut sum, mut greatest) = (0, 0);
    for (number, &(low, high)) in keys.iter().enumerate() {
        let mut slot = (hash(low, high) * (places as u64 * 2) >> 32) as usize;
        let mut length = 1;
        while index[slot] != usize::MAX {
            slot = (slot + 1) % index.len();
            length += 1;
        }
        index[slot] = number;
        sum += length;
        greatest = greatest.max(length);
    }
    Lengths { mean: sum as f64 / keys.len() as f64, greatest }
}

fn main() {
    println!("{:<20} {:>15} {:>18} {:>18} {:>18}", "room", "configurations", "50%", "90%", "100%");
    for named in rooms::all() {
        let mut table = vec![0; 4 << 20];
        let keys = configurations(&named.room, &mut table);
        print!("{:<20} {:>15}", named.name, keys.len());
        for load in [50, 90, 100] {
            let found = lengths(&keys, (keys.len() * 100).div_ceil(load));
            print!(" {:>10.2} {:>7}", found.mean, found.greatest);
        }
        println!();
    }
}
