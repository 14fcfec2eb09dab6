//! A fuzz target. It runs one input through the program of the package and through the proved program of the static
//! library for C, in one process. If the outputs differ, the process aborts, which the fuzzer reports.
use std::slice;

// The program in the static library, from `crates/cedar_c`.
unsafe extern "C" {
    fn cedar_run(
        input: *const u8,
        input_len: usize,
        seed: u64,
        key: u64,
        out: *mut u8,
        capacity: usize,
        written: *mut usize,
        exit_status: *mut u32,
    ) -> u32;
}

/// Returns the output and the status of the proved program.
fn run_proved(lines: &[u8], capacity: usize) -> (Vec<u8>, u32) {
    let (mut out, mut written, mut exit_status) = (vec![0; capacity], 0, 0);
    // SAFETY: the pointers point to arrays with the given lengths, and nothing else uses them during the call
    let status = unsafe {
        cedar_run(lines.as_ptr(), lines.len(), 7, 11, out.as_mut_ptr(), out.len(), &raw mut written, &raw mut exit_status)
    };
    assert_eq!(status, 0, "an allocation of the proved program failed");
    if written > capacity {
        return run_proved(lines, written);
    }
    out.truncate(written);
    (out, exit_status)
}

/// Asserts that both programs write the same for these lines.
///
/// # Safety
///
/// `data` must point to an array of `len` bytes.
#[unsafe(no_mangle)]
pub unsafe extern "C" fn LLVMFuzzerTestOneInput(data: *const u8, len: usize) -> i32 {
    let lines = match len {
        0 => &[],
        // SAFETY: the array of the caller has `len` bytes
        _ => unsafe { slice::from_raw_parts(data, len) },
    };
    let mut written = Vec::new();
    let status = cedar_store::program::run(&mut &lines[..], &mut written).expect("reading and writing memory never fails");
    let expected = run_proved(lines, written.len());
    assert_eq!((written, u32::from(status)), expected, "{:?}", String::from_utf8_lossy(lines));
    0
}
