//! Times, in milliseconds.

/// A time of day: 10:03:20.118.
pub fn of_day(time: u64) -> String {
    let (hours, rest) = (time / 3_600_000, time % 3_600_000);
    let (minutes, rest) = (rest / 60_000, rest % 60_000);
    format!(
        "{hours:02}:{minutes:02}:{:02}.{:03}",
        rest / 1_000,
        rest % 1_000
    )
}

/// How long something took: 1:07.412, or 57.412 below a minute.
pub fn taken(time: u64) -> String {
    let (minutes, rest) = (time / 60_000, time % 60_000);
    let (seconds, thousandths) = (rest / 1_000, rest % 1_000);
    match minutes {
        0 => format!("{seconds}.{thousandths:03}"),
        _ => format!("{minutes}:{seconds:02}.{thousandths:03}"),
    }
}
