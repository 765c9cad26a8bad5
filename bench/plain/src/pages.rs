//! The pages of a machine: one allocation of slots, and of each page the slot that has its bytes. Slot 0 has the zeros
//! of all pages that were never written; a page gets a slot of its own, the next one, when it is first written.

pub type Page = [u8; 4096];

pub struct Pages {
    start: *mut Page,
    layout: std::alloc::Layout,
    slots: Vec<u16>,
    used: u16,
}

// The allocation is the owner's alone.
unsafe impl Send for Pages {}

impl Pages {
    pub fn new(count: usize) -> Pages {
        let layout = std::alloc::Layout::array::<Page>(count + 1).unwrap();
        let start = unsafe { std::alloc::alloc(layout) } as *mut Page;
        assert!(!start.is_null());
        unsafe { start.write([0; 4096]) };
        Pages { start, layout, slots: vec![0; count], used: 1 }
    }

    fn slot(&self, at: usize) -> *mut Page {
        unsafe { self.start.add(self.slots[at] as usize) }
    }

    // The next slot, for a page that has none.
    fn own(&mut self, at: usize) -> *mut Page {
        self.slots[at] = self.used;
        self.used += 1;
        self.slot(at)
    }

    pub fn get(&self, at: usize) -> &Page {
        unsafe { &*self.slot(at) }
    }

    pub fn get_mut(&mut self, at: usize) -> &mut Page {
        if self.slots[at] == 0 {
            let slot = self.own(at);
            unsafe { slot.write([0; 4096]) };
        }
        unsafe { &mut *self.slot(at) }
    }

    pub fn fill(&mut self, at: usize, value: u8) {
        let slot = if self.slots[at] == 0 { self.own(at) } else { self.slot(at) };
        unsafe { slot.write([value; 4096]) };
    }

    pub fn copy(&mut self, target: usize, source: usize) {
        assert!(target != source);
        let written: *mut Page = self.get_mut(target);
        unsafe { (*written).copy_from_slice(self.get(source)) };
    }

    pub fn clear(&mut self, first: usize, count: usize) {
        for at in first..first + count {
            if self.slots[at] != 0 {
                unsafe { self.slot(at).write([0; 4096]) };
            }
        }
    }

    pub fn sum(&self, at: usize) -> u32 {
        self.get(at).iter().map(|&byte| u32::from(byte)).sum()
    }

    pub fn word(&self, at: usize, index: usize) -> u64 {
        u64::from_le_bytes(self.get(at)[8 * index..8 * index + 8].try_into().unwrap())
    }

    pub fn set_word(&mut self, at: usize, index: usize, word: u64) {
        self.get_mut(at)[8 * index..8 * index + 8].copy_from_slice(&word.to_le_bytes());
    }
}

impl Drop for Pages {
    fn drop(&mut self) {
        unsafe { std::alloc::dealloc(self.start as *mut u8, self.layout) };
    }
}
