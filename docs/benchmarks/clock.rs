// The processor's time of this thread, by the C library's clock on Linux: waiting for a busy processor is not in it.
use std::time::Duration;

#[repr(C)]
struct Time {
    seconds: i64,
    nanoseconds: i64,
}

const OF_THREAD: i32 = 3;

extern "C" {
    fn clock_gettime(clock: i32, time: *mut Time) -> i32;
}

pub fn of_thread() -> Duration {
    let mut time = Time { seconds: 0, nanoseconds: 0 };
    assert_eq!(unsafe { clock_gettime(OF_THREAD, &mut time) }, 0, "no clock of the thread");
    Duration::new(time.seconds as u64, time.nanoseconds as u32)
}
