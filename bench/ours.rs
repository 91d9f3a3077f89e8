//! The proved library on one book: ours BOOK
#![no_main]
#![allow(dead_code)]

mod clock;

#[no_mangle]
pub extern "C" fn main(_count: i32, _words: *const *const u8) -> i32 {
    clock::measure(|book| {
        sagalib::read(book, sagalib::Way::READ_ON)
            .map_or_else(|refused| refused.events, |answer| answer.events)
    });
    0
}
