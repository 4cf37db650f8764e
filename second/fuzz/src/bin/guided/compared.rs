//! Numbers that the instrumented code has compared, with the constant that each was to be:
//! what a length, an id or a place may have to be. libFuzzer keeps such a table too,
//! without those of 16 bits.
//!
//! The linker puts these functions in the place of the runtime's (`--wrap`), which they
//! call.

use std::sync::atomic::{AtomicU32, Ordering::Relaxed};

use fuzz::mutate::Compared;

/// How many are kept of one input: a later one may take the place of an earlier one.
const KEPT: usize = 1024;

/// Each as one number, the constant above the other.
static COMPARED: [AtomicU32; KEPT] = [const { AtomicU32::new(0) }; KEPT];

/// How often constants of each place were compared with, over all inputs.
static TIMES: [AtomicU32; KEPT] = [const { AtomicU32::new(0) }; KEPT];

/// Forgets them, before the next input.
pub fn forget() {
    for both in &COMPARED {
        both.store(0, Relaxed);
    }
}

/// Those of the last input.
pub fn some() -> Vec<Compared> {
    let each = COMPARED.iter().zip(&TIMES);
    let each = each.map(|(both, times)| (both.load(Relaxed), times.load(Relaxed)));
    let each = each.filter(|(both, _)| *both != 0);
    let apart = |(both, times)| Compared {
        constant: (both >> 16) as u16,
        number: both as u16,
        times,
    };
    each.map(apart).collect()
}

/// Keeps a constant and what a number was in its place.
fn note(constant: u64, number: u64) {
    if let (Ok(constant), Ok(number)) = (u16::try_from(constant), u16::try_from(number)) {
        if constant != number {
            let place = usize::from(constant.wrapping_mul(0x9E37) >> 6);
            TIMES[place].fetch_add(1, Relaxed);
            COMPARED[place].store(u32::from(constant) << 16 | u32::from(number), Relaxed);
        }
    }
}

/// The function for constants of one width.
macro_rules! wrapped {
    ($wrapped:ident, $real:ident, $number:ty) => {
        extern "C" {
            fn $real(constant: $number, number: $number);
        }

        #[no_mangle]
        extern "C" fn $wrapped(constant: $number, number: $number) {
            note(constant.into(), number.into());
            // The runtime's own, with what it was to be given.
            unsafe { $real(constant, number) }
        }
    };
}

wrapped!(
    __wrap___sanitizer_cov_trace_const_cmp1,
    __real___sanitizer_cov_trace_const_cmp1,
    u8
);
wrapped!(
    __wrap___sanitizer_cov_trace_const_cmp2,
    __real___sanitizer_cov_trace_const_cmp2,
    u16
);
wrapped!(
    __wrap___sanitizer_cov_trace_const_cmp4,
    __real___sanitizer_cov_trace_const_cmp4,
    u32
);
wrapped!(
    __wrap___sanitizer_cov_trace_const_cmp8,
    __real___sanitizer_cov_trace_const_cmp8,
    u64
);
