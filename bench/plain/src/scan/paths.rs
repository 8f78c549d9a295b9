//! Footpaths in chains, by the stop that they lead from.

use reference::network::Footpath;

pub struct PathTable {
    /// The place of the first footpath from each stop.
    first: Vec<Option<u32>>,
    /// The place of the next footpath from the same stop.
    next: Vec<Option<u32>>,
}

impl PathTable {
    /// Built from the back, so that each footpath leads on to what its chain begins with so far.
    pub fn over(paths: &[Footpath], stops: usize) -> PathTable {
        let mut first = vec![None; stops];
        let mut next = vec![None; paths.len()];
        for (place, path) in paths.iter().enumerate().rev() {
            next[place] = first[path.from as usize].replace(place as u32);
        }
        PathTable { first, next }
    }

    pub fn first(&self, stop: u32) -> Option<u32> {
        self.first[stop as usize]
    }

    pub fn next(&self, place: u32) -> Option<u32> {
        self.next[place as usize]
    }
}
