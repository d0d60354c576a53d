//! Our library, by the functions of `include/zhulmekov.h`.

use reference::TABLE_WORDS;

const BOOK_WORDS: usize = 5240;
const RULES_BYTES: usize = 32_768;

extern "C" {
    fn zhul_pass(
        file: *const u8,
        file_length: usize,
        block: *const u8,
        block_length: usize,
        table: *mut u64,
        table_words: usize,
    ) -> u32;
    fn zhul_load(
        file: *const u8,
        file_length: usize,
        book: *mut u64,
        rules: *mut u8,
        table: *mut u64,
        table_words: usize,
    ) -> u64;
    fn zhul_edit(
        line: *const u8,
        line_length: usize,
        book: *mut u64,
        table: *mut u64,
        table_words: usize,
    ) -> u64;
    fn zhul_decide(
        block: *const u8,
        block_length: usize,
        book: *const u64,
        rules: *const u8,
        table: *const u64,
        table_words: usize,
    ) -> u64;
    fn zhul_write(book: *const u64, rules: *const u8, buffer: *mut u8, buffer_length: usize) -> u64;
    fn zhul_length(book: *const u64, rules: *const u8) -> u64;
}

/// The three buffers that a host lends.
pub struct Library {
    book: Vec<u64>,
    rules: Vec<u8>,
    pub table: Vec<u64>,
}

// Each buffer is as long as the header asks for, and no two overlap: they are vectors of their own, and what is lent besides is borrowed.
impl Library {
    pub fn new() -> Library {
        Library { book: vec![0; BOOK_WORDS], rules: vec![0; RULES_BYTES], table: vec![0; TABLE_WORDS] }
    }

    #[inline(always)]
    pub fn load(&mut self, file: &[u8]) -> u64 {
        let (book, rules) = (self.book.as_mut_ptr(), self.rules.as_mut_ptr());
        unsafe { zhul_load(file.as_ptr(), file.len(), book, rules, self.table.as_mut_ptr(), TABLE_WORDS) }
    }

    #[inline(always)]
    pub fn edit(&mut self, line: &[u8]) -> u64 {
        let (book, table) = (self.book.as_mut_ptr(), self.table.as_mut_ptr());
        unsafe { zhul_edit(line.as_ptr(), line.len(), book, table, TABLE_WORDS) }
    }

    #[inline(always)]
    pub fn request(&self, block: &[u8]) -> u64 {
        let (book, rules) = (self.book.as_ptr(), self.rules.as_ptr());
        unsafe { zhul_decide(block.as_ptr(), block.len(), book, rules, self.table.as_ptr(), TABLE_WORDS) }
    }

    #[inline(always)]
    pub fn write(&self, buffer: &mut [u8]) -> u64 {
        let (book, rules) = (self.book.as_ptr(), self.rules.as_ptr());
        unsafe { zhul_write(book, rules, buffer.as_mut_ptr(), buffer.len()) }
    }

    #[inline(always)]
    pub fn length(&self) -> u64 {
        unsafe { zhul_length(self.book.as_ptr(), self.rules.as_ptr()) }
    }

    #[inline(always)]
    pub fn pass(&mut self, file: &[u8], block: &[u8]) -> u32 {
        let table = self.table.as_mut_ptr();
        unsafe { zhul_pass(file.as_ptr(), file.len(), block.as_ptr(), block.len(), table, TABLE_WORDS) }
    }
}
