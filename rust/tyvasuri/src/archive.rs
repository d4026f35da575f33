//! The archive's seven functions, each behind a safe function that hands on
//! whole slices. All `unsafe` code of the crate is here.
//!
//! What each call relies on: a pointer and the length after it are those of one
//! slice, the slices stay lent until the call returns, and Rust keeps a slice
//! that may be written apart from every other. The functions are proved to
//! touch nothing else, to take any bytes and numbers, and to return.
#![allow(unsafe_code)]

#[cfg(not(target_arch = "x86_64"))]
compile_error!("the checker's archive links only into programs for x86-64");

extern "C" {
    fn tyvasuri_judge(sheet: *const u8, sheet_len: usize) -> u64;
    fn tyvasuri_mode_demand(
        sheet: *const u8,
        sheet_len: usize,
        module: usize,
        mode: usize,
        from: usize,
        to: usize,
    ) -> u64;
    fn tyvasuri_state_demand(
        sheet: *const u8,
        sheet_len: usize,
        module: usize,
        mode: usize,
        time: usize,
        length: usize,
        work: *mut u32,
        work_len: usize,
    ) -> u64;
    fn tyvasuri_module_demand(
        sheet: *const u8,
        sheet_len: usize,
        module: usize,
        length: usize,
        work: *mut u32,
        work_len: usize,
    ) -> u64;
    fn tyvasuri_quick_test(
        sheet: *const u8,
        sheet_len: usize,
        work: *mut u32,
        work_len: usize,
    ) -> u64;
    fn tyvasuri_exact_test(
        sheet: *const u8,
        sheet_len: usize,
        work: *mut u32,
        work_len: usize,
        tape: *mut u8,
        tape_len: usize,
    ) -> u64;
    fn tyvasuri_report(
        sheet: *const u8,
        sheet_len: usize,
        work: *mut u32,
        work_len: usize,
        tape: *mut u8,
        tape_len: usize,
        out: *mut u8,
        out_len: usize,
    ) -> u64;
}

pub(crate) fn judge(sheet: &[u8]) -> u64 {
    // SAFETY: the pointer and the length are those of `sheet`, which is only read.
    unsafe { tyvasuri_judge(sheet.as_ptr(), sheet.len()) }
}

pub(crate) fn mode_demand(sheet: &[u8], module: usize, mode: usize, from: usize, to: usize) -> u64 {
    // SAFETY: the pointer and the length are those of `sheet`, which is only read.
    unsafe { tyvasuri_mode_demand(sheet.as_ptr(), sheet.len(), module, mode, from, to) }
}

pub(crate) fn state_demand(
    sheet: &[u8],
    module: usize,
    mode: usize,
    time: usize,
    length: usize,
    work: &mut [u32],
) -> u64 {
    // SAFETY: each pointer has its slice's length; `work` is lent for writing and overlaps nothing.
    unsafe {
        tyvasuri_state_demand(
            sheet.as_ptr(),
            sheet.len(),
            module,
            mode,
            time,
            length,
            work.as_mut_ptr(),
            work.len(),
        )
    }
}

pub(crate) fn module_demand(sheet: &[u8], module: usize, length: usize, work: &mut [u32]) -> u64 {
    // SAFETY: each pointer has its slice's length; `work` is lent for writing and overlaps nothing.
    unsafe {
        tyvasuri_module_demand(
            sheet.as_ptr(),
            sheet.len(),
            module,
            length,
            work.as_mut_ptr(),
            work.len(),
        )
    }
}

pub(crate) fn quick_test(sheet: &[u8], work: &mut [u32]) -> u64 {
    // SAFETY: each pointer has its slice's length; `work` is lent for writing and overlaps nothing.
    unsafe { tyvasuri_quick_test(sheet.as_ptr(), sheet.len(), work.as_mut_ptr(), work.len()) }
}

pub(crate) fn exact_test(sheet: &[u8], work: &mut [u32], tape: &mut [u8]) -> u64 {
    // SAFETY: each pointer has its slice's length; `work` and `tape` are lent for writing and
    // overlap nothing.
    unsafe {
        tyvasuri_exact_test(
            sheet.as_ptr(),
            sheet.len(),
            work.as_mut_ptr(),
            work.len(),
            tape.as_mut_ptr(),
            tape.len(),
        )
    }
}

pub(crate) fn report(sheet: &[u8], work: &mut [u32], tape: &mut [u8], out: &mut [u8]) -> u64 {
    // SAFETY: each pointer has its slice's length; `work`, `tape` and `out` are lent for writing
    // and overlap nothing.
    unsafe {
        tyvasuri_report(
            sheet.as_ptr(),
            sheet.len(),
            work.as_mut_ptr(),
            work.len(),
            tape.as_mut_ptr(),
            tape.len(),
            out.as_mut_ptr(),
            out.len(),
        )
    }
}
