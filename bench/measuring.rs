//! The clock, and how numbers of several runs are shown.

#[repr(C)]
struct Time {
    seconds: i64,
    nanoseconds: i64,
}

const PROCESS_TIME: i32 = 2;

unsafe extern "C" {
    fn clock_gettime(clock: i32, time: *mut Time) -> i32;
}

/// Of the processor: what other programs take meanwhile is not counted.
pub fn milliseconds() -> f64 {
    let mut time = Time { seconds: 0, nanoseconds: 0 };
    assert_eq!(unsafe { clock_gettime(PROCESS_TIME, &mut time) }, 0);
    time.seconds as f64 * 1e3 + time.nanoseconds as f64 / 1e6
}

/// The median, the least and the greatest.
pub fn spread(numbers: impl Iterator<Item = f64>) -> String {
    let mut numbers: Vec<f64> = numbers.collect();
    numbers.sort_by(f64::total_cmp);
    let [least, middle, greatest] = [0, numbers.len() / 2, numbers.len() - 1].map(|i| short(numbers[i]));
    format!("{middle} ({least} to {greatest})")
}

/// Two digits, or all before the point.
fn short(number: f64) -> String {
    match number {
        ..0.995 => format!("{number:.2}"),
        ..9.95 => format!("{number:.1}"),
        _ => format!("{number:.0}"),
    }
}
