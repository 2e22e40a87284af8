//! Judges programs in this process: each word is a file with a program's text, which is assembled and judged for all helpers.
//!
//!     rustc -O -L library/out -l static=percobpf examples/library/judge.rs
//!     ./judge examples/copy.s examples/watch.s
//!
//! The structs and functions are those of library/percobpf_api.h. A slice's pointer is never null, so that it may be passed as it is.

use std::{env, error::Error, fs};

mod percobpf {
    #[repr(C)]
    pub struct Verdict {
        pub kind: u32,
        pub slot: u32,
        pub code: u32,
    }

    #[repr(C)]
    pub struct Text {
        pub kind: u32,
        pub code: u32,
        pub place: usize,
        pub needed: usize,
    }

    unsafe extern "C" {
        fn percobpf_check(bytes: *const u8, count: usize, profile: u32, record: u32, helpers: u32) -> Verdict;
        fn percobpf_asm(text: *const u8, count: usize, profile: u32, out: *mut u8, room: usize) -> Text;
    }

    pub const DONE: u32 = 0;
    pub const REFUSED: u32 = 1;

    pub fn check(bytes: &[u8], profile: u32, record: u32, helpers: u32) -> Verdict {
        // The bytes are there for the whole call, and only read.
        unsafe { percobpf_check(bytes.as_ptr(), bytes.len(), profile, record, helpers) }
    }

    /// Writes what fits of the program's bytes into `out`.
    pub fn asm(text: &[u8], profile: u32, out: &mut [u8]) -> Text {
        // As above; `out` is borrowed alone, so that it overlaps nothing.
        unsafe { percobpf_asm(text.as_ptr(), text.len(), profile, out.as_mut_ptr(), out.len()) }
    }
}

/// The verdict on the text of a program.
fn judge(text: &[u8]) -> String {
    let mut code = vec![0; percobpf::asm(text, 1, &mut []).needed];
    let made = percobpf::asm(text, 1, &mut code);
    match made.kind {
        percobpf::DONE => {}
        percobpf::REFUSED => return format!("line {} code {}", made.place, made.code),
        kind => return format!("kind {kind}"),
    }
    match percobpf::check(&code, 1, 1, 15) {
        percobpf::Verdict { kind: percobpf::DONE, slot, .. } => format!("accepted {slot} slots"),
        percobpf::Verdict { slot, code, .. } => format!("refused slot {slot} code {code}"),
    }
}

fn main() -> Result<(), Box<dyn Error>> {
    for name in env::args().skip(1) {
        println!("{name}: {}", judge(&fs::read(&name)?));
    }
    Ok(())
}
