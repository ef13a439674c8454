//! Names and their places, by a small table of hashes.

#[derive(Default)]
pub struct Names {
    list: Vec<Vec<u8>>,
    /// The front of each, and its length.
    fronts: Vec<(u64, usize)>,
    /// One more than the place of a name; 0 where no name is. Its length is a power of two, and at least twice that of
    /// the list.
    table: Vec<u16>,
}

/// The first eight bytes of a name, as a number.
#[inline(always)]
fn front(name: &[u8]) -> u64 {
    name.iter().take(8).fold(0, |front, byte| front << 8 | u64::from(*byte))
}

#[inline(always)]
fn hash(front: u64, len: usize) -> usize {
    ((front ^ len as u64).wrapping_mul(0x9e37_79b9_7f4a_7c15) >> 40) as usize
}

impl Names {
    pub fn add(&mut self, name: &[u8]) {
        self.list.push(name.to_vec());
        self.fronts.push((front(name), name.len()));
        if self.list.len() * 2 > self.table.len() {
            self.table = vec![0; (self.list.len() * 4).next_power_of_two()];
            for place in 0..self.list.len() {
                self.enter(place);
            }
        } else {
            self.enter(self.list.len() - 1);
        }
    }

    fn enter(&mut self, place: usize) {
        let mask = self.table.len() - 1;
        let (front, len) = self.fronts[place];
        let mut at = hash(front, len) & mask;
        while self.table[at] != 0 {
            at = (at + 1) & mask;
        }
        self.table[at] = place as u16 + 1;
    }

    #[inline]
    pub fn place(&self, name: &[u8]) -> Option<u16> {
        let mask = self.table.len().checked_sub(1)?;
        let front = front(name);
        let mut at = hash(front, name.len()) & mask;
        loop {
            let place = self.table[at].checked_sub(1)?;
            let is_same = self.fronts[place as usize] == (front, name.len());
            if is_same && (name.len() <= 8 || self.list[place as usize] == name) {
                return Some(place);
            }
            at = (at + 1) & mask;
        }
    }

    pub fn name(&self, place: u16) -> &[u8] {
        &self.list[place as usize]
    }

    pub fn len(&self) -> usize {
        self.list.len()
    }
}
