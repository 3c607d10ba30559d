//! FFTW's transforms of the same three kinds. Each gives twice what the oracle's gives.
use std::ffi::{c_int, c_uint, c_void};

extern "C" {
    fn fftw_plan_r2r_1d(n: c_int, input: *mut f64, output: *mut f64, kind: c_int, flags: c_uint) -> *mut c_void;
    fn fftw_execute(plan: *mut c_void);
    fn fftw_destroy_plan(plan: *mut c_void);
}

// Of fftw3.h.
const REDFT01: c_int = 4;
const REDFT10: c_int = 5;
const REDFT11: c_int = 6;
const FFTW_MEASURE: c_uint = 0;

/// A plan in place, for the buffer it was made with.
pub struct Plan(*mut c_void);

impl Plan {
    /// The buffer is overwritten, and neither moved nor let go while the plan is there.
    pub fn new(transform: &str, buffer: &mut [f64]) -> Option<Plan> {
        let kind = match transform {
            "dct2" => REDFT10,
            "dct3" => REDFT01,
            "dct4" => REDFT11,
            _ => return None,
        };
        let (n, buffer) = (buffer.len() as c_int, buffer.as_mut_ptr());
        let plan = unsafe { fftw_plan_r2r_1d(n, buffer, buffer, kind, FFTW_MEASURE) };
        assert!(!plan.is_null(), "FFTW has no plan");
        Some(Plan(plan))
    }

    /// Transforms the buffer of `new`.
    pub fn run(&self) {
        unsafe { fftw_execute(self.0) }
    }
}

impl Drop for Plan {
    fn drop(&mut self) {
        unsafe { fftw_destroy_plan(self.0) }
    }
}
