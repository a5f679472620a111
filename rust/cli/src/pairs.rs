//! The units of two files, side by side.

use std::collections::{HashMap, VecDeque};

/// A unit of a file: its address and its rows, 8 bytes each.
pub type Given = (u64, Vec<u8>);

/// A unit of the first file and the same unit of the second, as far as both have it.
pub struct Pair {
    pub address: u64,
    /// Its rows, of the first file and of the second.
    pub tables: [Option<Vec<u8>>; 2],
}

/// The units of the first file in their order, each beside that of the second with the same address,
/// then those that only the second has. Where a file has a unit several times, the first ones belong
/// together, then the second ones, and so on.
pub fn pairs(first: Vec<Given>, second: Vec<Given>) -> Vec<Pair> {
    let mut places: HashMap<u64, VecDeque<usize>> = HashMap::new();
    for (place, (address, _)) in second.iter().enumerate() {
        places.entry(*address).or_default().push_back(place);
    }
    let mut left: Vec<Option<Given>> = second.into_iter().map(Some).collect();
    let mut pairs = Vec::with_capacity(first.len());
    for (address, rows) in first {
        let place = places.get_mut(&address).and_then(VecDeque::pop_front);
        let other = place.and_then(|place| left[place].take()).map(|(_, rows)| rows);
        pairs.push(Pair { address, tables: [Some(rows), other] });
    }
    let only = left.into_iter().flatten();
    pairs.extend(only.map(|(address, rows)| Pair { address, tables: [None, Some(rows)] }));
    pairs
}
