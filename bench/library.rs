//! Measures a call of the library, and so is an example of one from Rust: how long `check` and `run` of a small program take in this process.
//!
//!     gzip -dc release/libroolvist-x86_64-linux.so.gz >libroolvist.so
//!     rustc -O bench/library.rs -L . -l roolvist -o library && LD_LIBRARY_PATH=. ./library
use std::time::Instant;

#[repr(C)]
struct Written {
    out: usize,
    err: usize,
}

// A slice is passed as a pointer and a length.
extern "C" {
    fn roolvist_call(
        bytes: *const u8,
        bytes_len: usize,
        lengths: *const usize,
        lengths_len: usize,
        words: usize,
        out: *mut u8,
        out_len: usize,
        err: *mut u8,
        err_len: usize,
        written: *mut Written,
    ) -> u8;
}

/// What a command line comes to: its status and its output.
fn call(words: &[&str], files: &[(&str, &str)]) -> (u8, String) {
    let mut pieces: Vec<&str> = words.to_vec();
    for (path, content) in files {
        pieces.extend([path, content]);
    }
    let bytes = pieces.concat();
    let lengths: Vec<usize> = pieces.iter().map(|piece| piece.len()).collect();
    let (mut out, mut err) = (vec![0; 1 << 16], vec![0; 1 << 16]);
    let mut written = Written { out: 0, err: 0 };
    // The buffers are this call's alone, and no pointer is null.
    let status = unsafe {
        roolvist_call(
            bytes.as_ptr(),
            bytes.len(),
            lengths.as_ptr(),
            lengths.len(),
            words.len(),
            out.as_mut_ptr(),
            out.len(),
            err.as_mut_ptr(),
            err.len(),
            &mut written,
        )
    };
    (status, String::from_utf8_lossy(&out[..written.out]).into_owned())
}

fn main() {
    let files = [("double.bril", "@main(n: int) { n: int = add n n; print n; }")];
    for words in [&["roolvist", "check", "double.bril"][..], &["roolvist", "run", "double.bril", "--", "21"]] {
        let begun = Instant::now();
        let mut came = (0, String::new());
        for _ in 0..1000 {
            came = call(words, &files);
        }
        println!("{}: status {}, {:?}, {:?} a call", words[1], came.0, came.1, begun.elapsed() / 1000);
    }
}
