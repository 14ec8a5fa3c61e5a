//! Memory that another program can map as well, by its descriptor.

use std::ffi::{c_char, c_void};
use std::fs::File;
use std::os::fd::{AsRawFd, FromRawFd, RawFd};
use std::ptr::{null_mut, NonNull};

extern "C" {
    fn getpagesize() -> i32;
    fn memfd_create(name: *const c_char, flags: u32) -> i32;
    fn mmap(
        address: *mut c_void,
        length: usize,
        protection: i32,
        flags: i32,
        file: i32,
        offset: i64,
    ) -> *mut c_void;
    fn munmap(address: *mut c_void, length: usize) -> i32;
}

/// What is done with the pages, by the numbers of Linux.
const READ_AND_WRITE: i32 = 1 | 2;
const SHARED: i32 = 1;

/// Without a flag a program that is started keeps the descriptor.
const NO_FLAG: u32 = 0;

pub fn page() -> usize {
    let bytes = unsafe { getpagesize() };
    usize::try_from(bytes).expect("a page has a size")
}

pub struct Shared {
    file: File,
    /// Where it is mapped, if there is a byte of it.
    first: NonNull<u8>,
    /// How many bytes it has: whole pages.
    length: usize,
}

impl Shared {
    /// No byte at all.
    pub fn empty() -> Shared {
        let file = unsafe { memfd_create(c"lent".as_ptr(), NO_FLAG) };
        assert_ne!(file, -1, "memory cannot be shared");
        Shared {
            file: unsafe { File::from_raw_fd(file) },
            first: NonNull::dangling(),
            length: 0,
        }
    }

    /// The other program knows it by this number.
    pub fn descriptor(&self) -> RawFd {
        self.file.as_raw_fd()
    }

    /// Makes room for so many bytes, in no more pages than that takes. What it
    /// held stays, unless the number of pages changes.
    pub fn make_room(&mut self, bytes: usize) {
        let needed = bytes.next_multiple_of(page());
        if needed == self.length {
            return;
        }
        self.unmap();
        // With no byte in between, all that come are 0.
        for length in [0, needed] {
            let made = self.file.set_len(length as u64);
            made.unwrap_or_else(|error| panic!("{needed} bytes cannot be shared: {error}"));
        }
        self.map(needed);
    }

    fn map(&mut self, length: usize) {
        if length == 0 {
            return;
        }
        let file = self.descriptor();
        let first = unsafe { mmap(null_mut(), length, READ_AND_WRITE, SHARED, file, 0) };
        assert_ne!(first as isize, -1, "{length} bytes cannot be mapped");
        self.first = NonNull::new(first.cast()).expect("a place that is not NULL");
        self.length = length;
    }

    fn unmap(&mut self) {
        if self.length > 0 {
            let failed = unsafe { munmap(self.first.as_ptr().cast(), self.length) };
            assert_eq!(failed, 0, "pages cannot be given back");
        }
        self.first = NonNull::dangling();
        self.length = 0;
    }

    pub fn length(&self) -> usize {
        self.length
    }

    pub fn bytes(&self) -> &[u8] {
        unsafe { std::slice::from_raw_parts(self.first.as_ptr(), self.length) }
    }

    pub fn bytes_mut(&mut self) -> &mut [u8] {
        unsafe { std::slice::from_raw_parts_mut(self.first.as_ptr(), self.length) }
    }
}

impl Drop for Shared {
    fn drop(&mut self) {
        self.unmap();
    }
}

#[cfg(test)]
mod tests {
    use super::*;
    use std::os::unix::fs::FileExt;

    #[test]
    fn it_has_whole_pages_and_no_more_than_it_takes() {
        let mut shared = Shared::empty();
        for (bytes, pages) in [(0, 0), (1, 1), (page(), 1), (page() + 1, 2), (0, 0)] {
            shared.make_room(bytes);
            assert_eq!(shared.length(), pages * page());
            assert_eq!(shared.bytes().len(), shared.length());
        }
    }

    #[test]
    fn what_it_held_stays_with_the_number_of_pages() {
        let mut shared = Shared::empty();
        shared.make_room(page() + 1);
        shared.bytes_mut()[7] = 9;
        shared.make_room(2 * page());
        assert_eq!(shared.bytes()[7], 9);
        shared.make_room(page());
        assert_eq!(shared.bytes()[7], 0);
    }

    #[test]
    fn who_has_the_descriptor_has_the_bytes() {
        let mut shared = Shared::empty();
        shared.make_room(1);
        shared.bytes_mut()[7] = 9;
        let mut byte = [0];
        shared.file.read_exact_at(&mut byte, 7).unwrap();
        assert_eq!(byte, [9]);
        shared.file.write_all_at(&[8], 7).unwrap();
        assert_eq!(shared.bytes()[7], 8);
    }
}
