//! The example of the package's documentation, started as a C program is: Rust's own start looks up where the stack lies, which the emulator of another
//! processor cannot tell.
#![no_main]

include!("sagalib/examples/first.rs");

#[unsafe(export_name = "main")]
pub extern "C" fn start() -> i32 {
    main();
    0
}
