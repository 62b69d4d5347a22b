//! A table by numbers up to 255. It is lent from call to call and never cleared
//! as a whole: a stage sets what it reads, no more than the file has of it. Where
//! this is compiled for debugging, it is seen to that nothing else is read.

pub(super) struct Table<T> {
    items: [T; 256],
    #[cfg(debug_assertions)]
    set: [bool; 256],
}

impl<T: Copy> Table<T> {
    pub(super) const fn of(item: T) -> Table<T> {
        Table {
            items: [item; 256],
            #[cfg(debug_assertions)]
            set: [false; 256],
        }
    }

    #[inline]
    pub(super) fn get(&self, at: u8) -> T {
        #[cfg(debug_assertions)]
        assert!(self.set[at as usize], "{at} is not set");
        self.items[at as usize]
    }

    #[inline]
    pub(super) fn set(&mut self, at: u8, item: T) {
        #[cfg(debug_assertions)]
        {
            self.set[at as usize] = true;
        }
        self.items[at as usize] = item;
    }

    /// Sets the first ones, up to all 256.
    #[inline]
    pub(super) fn fill(&mut self, count: usize, item: T) {
        #[cfg(debug_assertions)]
        self.set[..count].fill(true);
        self.items[..count].fill(item);
    }
}
