//! What is timed must be taken to be read. (std::hint has this too, in newer compilers than Debian's.)

/// The value itself, read once more behind the compiler's back.
pub fn black_box<T>(x: T) -> T {
    // not dropped here: the caller gets the only copy
    unsafe {
        let y = std::ptr::read_volatile(&x);
        std::mem::forget(x);
        y
    }
}
