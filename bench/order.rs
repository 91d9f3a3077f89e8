//! The order to replay in of one book, by the proved library: order BOOK
#![no_main]
#![allow(dead_code)]

mod clock;

fn listed(book: &[u8]) -> u64 {
    let mut list = [0; sagalib::TRANSACTIONS];
    sagalib::replay(book, sagalib::Way::READ_ON, &mut list).map_or(0, |answer| answer.count)
}

#[no_mangle]
pub extern "C" fn main(_count: i32, _words: *const *const u8) -> i32 {
    clock::measure(listed);
    0
}
