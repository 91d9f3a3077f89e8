//! The listing of one book, by the proved library: lister BOOK
#![no_main]
#![allow(dead_code)]

mod clock;

fn listed(book: &[u8]) -> u64 {
    let mut room = vec![0; sagalib::LISTING_BYTES];
    sagalib::listing(book, sagalib::Way::READ_ON, &mut room).map_or(0, |answer| answer.count)
}

#[no_mangle]
pub extern "C" fn main(_count: i32, _words: *const *const u8) -> i32 {
    clock::measure(listed);
    0
}
