//! Memory for the files that a thread reads in a round, one after the other. The next round uses it again: a fault for each page costs more
//! than reading the file.

/// What is longer is of large pages, where the system has them.
const LONG: usize = 4 << 20;

/// No more is asked for before it is needed, nor kept.
const MOST: usize = 32 << 20;

#[derive(Default)]
pub struct FileMemory {
    free: Vec<u8>,
    /// How much of it was used, so that it is resident.
    used: usize,
}

impl FileMemory {
    /// Empty memory, for a thread that may have to read all of so many bytes. There is some more, since to grow would be to begin anew.
    pub fn take(&mut self, bytes: u64) -> Vec<u8> {
        let len =
            usize::try_from(bytes).map_or(MOST, |bytes| MOST.min(bytes.saturating_add(bytes / 8)));
        if self.free.capacity() < len {
            *self = FileMemory {
                free: with_large_pages(len),
                used: 0,
            };
        }
        std::mem::take(&mut self.free)
    }

    /// Memory that is no longer needed. Where the thread had much more to read in an earlier round, the system gets it back: other threads
    /// have as much.
    pub fn give_back(&mut self, mut memory: Vec<u8>) {
        self.used = self.used.max(memory.len());
        if memory.capacity() > MOST || self.used / 2 > memory.len() + LONG / 2 {
            *self = FileMemory::default();
            return;
        }
        memory.clear();
        self.free = memory;
    }
}

fn with_large_pages(len: usize) -> Vec<u8> {
    let memory: Vec<u8> = Vec::with_capacity(len);
    if len >= LONG {
        let page = page_size();
        let start = memory.as_ptr().addr().next_multiple_of(page);
        let end = memory.as_ptr().addr() + memory.capacity();
        let pages = (end - start) / page * page;
        let start = memory.as_ptr().with_addr(start).cast_mut();
        // SAFETY: the pages are inside of memory that belongs to this vector. The call changes no byte, and may fail.
        unsafe { libc::madvise(start.cast(), pages, libc::MADV_HUGEPAGE) };
    }
    memory
}

fn page_size() -> usize {
    // SAFETY: the call takes any number.
    let size = unsafe { libc::sysconf(libc::_SC_PAGESIZE) };
    usize::try_from(size).unwrap_or(4 << 10)
}

#[cfg(test)]
mod tests {
    use super::*;

    /// The capacity that a round of so many bytes gets, after which so many are used.
    fn round(memory: &mut FileMemory, asked: u64, used: usize) -> usize {
        let mut bytes = memory.take(asked);
        assert!(bytes.is_empty());
        let capacity = bytes.capacity();
        bytes.resize(used, 7);
        memory.give_back(bytes);
        capacity
    }

    #[test]
    fn memory_is_used_again() {
        let mut memory = FileMemory::default();
        assert_eq!(round(&mut memory, 0, 0), 0);
        let first = round(&mut memory, 10 << 20, 5 << 20);
        assert!((11 << 20..12 << 20).contains(&first), "{first}");
        let place = memory.free.as_ptr();
        assert_eq!(round(&mut memory, 9 << 20, 4 << 20), first);
        assert_eq!(round(&mut memory, 10 << 20, 6 << 20), first);
        assert_eq!(memory.free.as_ptr(), place);
        assert_eq!(memory.used, 6 << 20);
    }

    #[test]
    fn what_is_too_much_is_given_back() {
        let mut memory = FileMemory::default();
        round(&mut memory, 20 << 20, 19 << 20);
        round(&mut memory, 20 << 20, 8 << 20);
        assert!(memory.free.capacity() > 20 << 20);
        round(&mut memory, 20 << 20, 5 << 20);
        assert_eq!((memory.free.capacity(), memory.used), (0, 0));
        let most = round(&mut memory, u64::MAX, 40 << 20);
        assert_eq!(most, 32 << 20);
        assert_eq!(memory.free.capacity(), 0);
    }
}
