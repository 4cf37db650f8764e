//! libFuzzer's runtime: what it calls, and what is called of it.

use std::cell::RefCell;
use std::ffi::{c_char, c_int, CString, OsStr, OsString};
use std::fs;
use std::os::unix::ffi::OsStrExt;
use std::path::{Path, PathBuf};
use std::process::ExitCode;
use std::slice;
use std::sync::atomic::{AtomicU64, Ordering::Relaxed};
use std::sync::OnceLock;

use compare::wide::call::Call;
use compare::wide::fault;
use compare::Random;
use fuzz::calls::Calls;
use fuzz::corpus::Named;
use fuzz::mutate::Draw;

use super::compared;

extern "C" {
    fn LLVMFuzzerRunDriver(
        count: *mut c_int,
        words: *mut *mut *mut c_char,
        one: extern "C" fn(*const u8, usize) -> c_int,
    ) -> c_int;
    fn LLVMFuzzerMutate(bytes: *mut u8, len: usize, room: usize) -> usize;
    fn atexit(last: extern "C" fn()) -> c_int;
    fn _exit(status: c_int) -> !;
}

type Boxed = Box<dyn Fn(&Call<'_>, &mut [u8], &mut [u64]) -> u64>;

thread_local! {
    static CALLS: RefCell<Calls<Boxed>> = RefCell::new(Calls::new(Box::new(super::library())));
    /// The input whose calls are made.
    static INPUT: RefCell<Vec<u8>> = const { RefCell::new(Vec::new()) };
}

/// The folder for an input that shows a difference.
static FOUND: OnceLock<PathBuf> = OnceLock::new();

/// How many inputs were executed, and how many calls were held.
static EXECUTIONS: AtomicU64 = AtomicU64::new(0);
static HELD: AtomicU64 = AtomicU64::new(0);

/// Runs libFuzzer with these words. It ends the process.
pub fn run(found: &Path, own: &OsStr, words: &[OsString]) -> ExitCode {
    FOUND.get_or_init(|| found.to_owned());
    fault::watch(tell_fault);
    let word = |word: &OsStr| {
        let word = CString::new(word.as_bytes()).expect("no zero byte");
        word.into_raw()
    };
    let words = words.iter().map(|it| word(it));
    let mut words: Vec<*mut c_char> = [word(own)].into_iter().chain(words).collect();
    let mut count = c_int::try_from(words.len()).expect("few words");
    words.push(std::ptr::null_mut());
    let mut words = words.leak().as_mut_ptr();
    // The words end in a null pointer and stay for as long as the process.
    let status = unsafe {
        atexit(tell_counts);
        LLVMFuzzerRunDriver(&raw mut count, &raw mut words, one)
    };
    ExitCode::from(u8::from(status != 0))
}

/// Makes the calls of one input. At the first difference the process ends.
extern "C" fn one(bytes: *const u8, len: usize) -> c_int {
    let input = match len {
        0 => &[],
        // libFuzzer lends so many.
        _ => unsafe { slice::from_raw_parts(bytes, len) },
    };
    EXECUTIONS.fetch_add(1, Relaxed);
    compared::forget();
    INPUT.with_borrow_mut(|kept| input.clone_into(kept));
    let different = CALLS.with_borrow_mut(|calls| {
        calls.hold_input(input);
        HELD.store(calls.holder.tally.calls(), Relaxed);
        calls.holder.differences.drain(..).next()
    });
    if let Some(different) = different {
        tell(&different.brief);
        // libFuzzer's own end would print the input.
        unsafe { _exit(1) }
    }
    0
}

/// Tells of a fault inside a call, without the call's bytes; then the process ends.
fn tell_fault(text: &str) {
    tell(&fault::without_bytes(text));
}

/// Keeps the input, tells of it in one line without its bytes, and tells the counts.
fn tell(what: &str) {
    let found = FOUND.get().expect("set before the run");
    let named = INPUT.with_borrow(|input| Named::new(input.clone()));
    let path = found.join(named.name);
    let kept = fs::create_dir_all(found).and_then(|()| fs::write(&path, named.input));
    let path = path.display();
    match kept {
        Ok(()) => {
            println!("different: {what}: {path} shows it; tools/fuzz show {path} tells more");
        }
        Err(error) => println!("different: {what}; {path} can't be written: {error}"),
    }
    tell_counts();
}

extern "C" fn tell_counts() {
    let [executions, held] = [&EXECUTIONS, &HELD].map(|count| count.load(Relaxed));
    println!("executions {executions} calls {held}");
}

/// Changes an input: half of the time as its group has it, else as libFuzzer does.
#[no_mangle]
pub extern "C" fn LLVMFuzzerCustomMutator(
    bytes: *mut u8,
    len: usize,
    room: usize,
    seed: u32,
) -> usize {
    let mut draw = Draw {
        random: Random::new(seed.into()),
        compared: compared::some(),
    };
    if draw.random.one_in(2) {
        // libFuzzer lends room for so many bytes, of which len are the input.
        let mut input = unsafe { slice::from_raw_parts(bytes, len) }.to_vec();
        draw.change(&mut input);
        if input.len() <= room && !input.is_empty() {
            unsafe { slice::from_raw_parts_mut(bytes, input.len()) }.copy_from_slice(&input);
            return input.len();
        }
    }
    unsafe { LLVMFuzzerMutate(bytes, len, room) }
}
