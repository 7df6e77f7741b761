//! The library's own functions on slices, with its answers as include/floesedge.h has them. All unsafe code stands here.

/// The number from 0 to 8, or 10, and a count: records or names for 0, faults for 5 and 7, else 0.
#[repr(C)]
#[derive(Clone, Copy, Debug, PartialEq, Eq)]
pub struct Verdict {
    pub number: u32,
    pub count: u32,
}

/// The number from 0 to 4, and a record number, 0 but for 3.
#[repr(C)]
#[derive(Clone, Copy, Debug, PartialEq, Eq)]
pub struct Answer {
    pub number: u32,
    pub record: u32,
}

/// Translating and naming have one form.
type Read = unsafe extern "C" fn(*const u8, usize, *mut u8, usize, *mut u8, usize) -> Verdict;

/// Evaluating and starting have one form.
type Run = unsafe extern "C" fn(*const u8, usize, *mut f64, usize, *mut f64, usize) -> Answer;

extern "C" {
    fn floesedge_translate(
        text: *const u8,
        text_len: usize,
        faults: *mut u8,
        faults_len: usize,
        program: *mut u8,
        program_len: usize,
    ) -> Verdict;
    fn floesedge_names(
        text: *const u8,
        text_len: usize,
        faults: *mut u8,
        faults_len: usize,
        names: *mut u8,
        names_len: usize,
    ) -> Verdict;
    fn floesedge_evaluate(p: *const u8, p_len: usize, v: *mut f64, v_len: usize, d: *mut f64, d_len: usize) -> Answer;
    fn floesedge_start(p: *const u8, p_len: usize, v: *mut f64, v_len: usize, d: *mut f64, d_len: usize) -> Answer;
    fn floesedge_step(
        program: *const u8,
        program_len: usize,
        h: f64,
        values: *mut f64,
        values_len: usize,
        derivs: *mut f64,
        derivs_len: usize,
    ) -> Answer;
}

// SAFETY of the calls: each pointer and length are those of one slice, so the pointer is aligned and not null, also where
// the slice is empty, and valid for the length; a slice that is written to is borrowed alone, so it overlaps none.

/// Calls one of the two that read a text.
fn read(call: Read, text: &[u8], faults: &mut [u8], out: &mut [u8]) -> Verdict {
    let (faults_len, out_len) = (faults.len(), out.len());
    unsafe {
        call(
            text.as_ptr(),
            text.len(),
            faults.as_mut_ptr(),
            faults_len,
            out.as_mut_ptr(),
            out_len,
        )
    }
}

/// Translates a text.
pub fn translate(text: &[u8], faults: &mut [u8], program: &mut [u8]) -> Verdict {
    read(floesedge_translate, text, faults, program)
}

/// Names the slots of a text.
pub fn names(text: &[u8], faults: &mut [u8], roster: &mut [u8]) -> Verdict {
    read(floesedge_names, text, faults, roster)
}

/// Calls one of the two that run a program without a step.
fn run(call: Run, program: &[u8], values: &mut [f64], derivs: &mut [f64]) -> Answer {
    let (values_len, derivs_len) = (values.len(), derivs.len());
    unsafe {
        call(
            program.as_ptr(),
            program.len(),
            values.as_mut_ptr(),
            values_len,
            derivs.as_mut_ptr(),
            derivs_len,
        )
    }
}

/// Evaluates a program.
pub fn evaluate(program: &[u8], values: &mut [f64], derivs: &mut [f64]) -> Answer {
    run(floesedge_evaluate, program, values, derivs)
}

/// Starts a program.
pub fn start(program: &[u8], values: &mut [f64], derivs: &mut [f64]) -> Answer {
    run(floesedge_start, program, values, derivs)
}

/// One Euler step.
pub fn step(program: &[u8], h: f64, values: &mut [f64], derivs: &mut [f64]) -> Answer {
    let (values_len, derivs_len) = (values.len(), derivs.len());
    unsafe {
        floesedge_step(
            program.as_ptr(),
            program.len(),
            h,
            values.as_mut_ptr(),
            values_len,
            derivs.as_mut_ptr(),
            derivs_len,
        )
    }
}
