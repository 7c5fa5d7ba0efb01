//! The program `dgt` as plain Rust without proofs: the root of what `bindings/rust/generate
//! --program` writes. Rattle's program runs without Rust's runtime, and so does this one: that one
//! would open closed standard streams.
#![no_std]
#![no_main]
#![allow(warnings)]

extern crate std;

macro_rules! format {
    (in $alloc:expr; $($rest:tt)*) => {{
        let _ = $alloc;
        crate::rattle_std::string_of(core::format_args!($($rest)*))
    }};
}

macro_rules! generated {
    ($($name:ident $path:literal),* $(,)?) => {$(#[path = $path] pub mod $name;)*};
}

mod ported;
mod rattle_std;
use ported::{circular_buffer, hex, strsim};

include!("generated/modules.rs");

#[unsafe(no_mangle)]
extern "C" fn main(_count: i32, _words: *const *const u8) -> i32 {
    rattle_std::ignore_broken_pipes();
    dgt::main(rattle_std::HostRuntime).0.into()
}
