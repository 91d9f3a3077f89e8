//! The second program on one book: theirs BOOK
#![no_main]

mod clock;

#[no_mangle]
pub extern "C" fn main(_count: i32, _words: *const *const u8) -> i32 {
    clock::measure(|book| second::read(book).events as u64);
    0
}
