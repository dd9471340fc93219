//! Processor time of this thread, which other work on the machine does not add to.

#[repr(C)]
struct Timespec {
    seconds: i64,
    nanoseconds: i64,
}

const THREAD_CPU_TIME: i32 = 3;

unsafe extern "C" {
    fn clock_gettime(clock: i32, time: *mut Timespec) -> i32;
}

fn now() -> i64 {
    let mut time = Timespec {
        seconds: 0,
        nanoseconds: 0,
    };
    let failed = unsafe { clock_gettime(THREAD_CPU_TIME, &mut time) };
    assert_eq!(failed, 0, "this thread has a clock");
    time.seconds * 1_000_000_000 + time.nanoseconds
}

/// Nanoseconds that the work took.
pub fn took(work: impl FnOnce()) -> i64 {
    let start = now();
    work();
    now() - start
}
