//! The counters that instrumented code has, one for each edge.

/// A row of the table beside the counters: where the edge's code stands, and flags.
#[repr(C)]
struct Row {
    place: usize,
    _flags: usize,
}

// The linker makes these: where the counters and the table begin, and where the
// counters end.
extern "C" {
    static mut __start___sancov_cntrs: u8;
    static mut __stop___sancov_cntrs: u8;
    static __start___sancov_pcs: Row;
}

/// How many edges there are.
pub fn count() -> usize {
    let (start, stop) = (
        &raw const __start___sancov_cntrs,
        &raw const __stop___sancov_cntrs,
    );
    // Both are ends of one section.
    unsafe { stop.offset_from(start) }.unsigned_abs()
}

/// The edges that some work reaches, each with how often: once, up to three times, up to
/// fifteen, or more.
pub fn reached<T>(work: impl FnOnce() -> T) -> Vec<(usize, u8)> {
    let start = &raw mut __start___sancov_cntrs;
    for edge in 0..count() {
        // Inside the section; nothing else is at work.
        unsafe { start.add(edge).write_volatile(0) };
    }
    work();
    let times = |edge| unsafe { start.add(edge).read_volatile() };
    let often = |edge| match times(edge) {
        0 => None,
        1 => Some((edge, 1)),
        2..=3 => Some((edge, 2)),
        4..=15 => Some((edge, 3)),
        _ => Some((edge, 4)),
    };
    (0..count()).filter_map(often).collect()
}

/// Where the code of each edge stands.
pub fn places() -> Vec<usize> {
    let first = &raw const __start___sancov_pcs;
    // The table has a row for each counter.
    (0..count())
        .map(|edge| unsafe { (*first.add(edge)).place })
        .collect()
}
