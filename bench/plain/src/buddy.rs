//! Free blocks in lists by order.
const NOWHERE: u16 = 4096;

// Of a granule that heads a free block, one more than its order; the blocks of an order linked by number.
pub struct Buddy {
    heads: Vec<u8>,
    next: Vec<u16>,
    prev: Vec<u16>,
    firsts: [u16; 10],
    mask: u16,
    pub free: u16,
}

impl Buddy {
    pub fn new(count: usize) -> Buddy {
        let (next, prev) = (vec![NOWHERE; count], vec![NOWHERE; count]);
        let mut buddy = Buddy { heads: vec![0; count], next, prev, firsts: [NOWHERE; 10], mask: 0, free: 0 };
        for granule in (0..count).rev() {
            buddy.give(granule, 0);
        }
        buddy
    }

    fn head(&self, at: usize) -> u8 {
        self.heads.get(at).copied().unwrap_or(0)
    }

    fn put(&mut self, at: usize, order: usize) {
        let first = self.firsts[order];
        self.heads[at] = order as u8 + 1;
        self.next[at] = first;
        self.prev[at] = NOWHERE;
        self.firsts[order] = at as u16;
        if let Some(prev) = self.prev.get_mut(first as usize) {
            *prev = at as u16;
        }
        self.mask |= 1 << order;
    }

    fn take_out(&mut self, at: usize, order: usize) {
        let (next, prev) = (self.next[at], self.prev[at]);
        self.heads[at] = 0;
        match self.next.get_mut(prev as usize) {
            Some(link) => *link = next,
            None => self.firsts[order] = next,
        }
        if let Some(link) = self.prev.get_mut(next as usize) {
            *link = prev;
        }
        if self.firsts[order] == NOWHERE {
            self.mask &= !(1 << order);
        }
    }

    pub fn take(&mut self, order: usize) -> Option<usize> {
        let above = self.mask >> order;
        if above == 0 {
            return None;
        }
        let mut found = order + above.trailing_zeros() as usize;
        let first = self.firsts[found] as usize;
        self.take_out(first, found);
        while found > order {
            found -= 1;
            self.put(first ^ (1 << found), found);
        }
        self.free -= 1 << order;
        Some(first)
    }

    pub fn give(&mut self, mut first: usize, mut order: usize) {
        self.free += 1 << order;
        while order < 9 && self.head(first ^ (1 << order)) as usize == order + 1 {
            self.take_out(first ^ (1 << order), order);
            first &= !(1 << order);
            order += 1;
        }
        self.put(first, order);
    }

    /// Takes that block, where it is aligned, inside and free.
    pub fn take_at(&mut self, order: usize, first: usize) -> bool {
        if first % (1 << order) != 0 {
            return false;
        }
        for found in (order..10).rev() {
            let head = first >> found << found;
            if self.head(head) as usize == found + 1 {
                self.take_out(head, found);
                for half in (order..found).rev() {
                    self.put((first >> half << half) ^ (1 << half), half);
                }
                self.free -= 1 << order;
                return true;
            }
        }
        false
    }
}
