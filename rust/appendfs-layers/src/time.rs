//! Times of std.

use crate::Time;
use std::time::{Duration, SystemTime, UNIX_EPOCH};

impl From<SystemTime> for Time {
    /// ```
    /// use appendfs_layers::Time;
    /// use std::time::{Duration, UNIX_EPOCH};
    /// assert_eq!(Time::from(UNIX_EPOCH - Duration::from_millis(500)), Time::new(-1, 500_000_000));
    /// ```
    fn from(t: SystemTime) -> Time {
        match t.duration_since(UNIX_EPOCH) {
            Ok(after) => Time::new(seconds(after), after.subsec_nanos()),
            Err(before) => {
                let before = before.duration();
                match before.subsec_nanos() {
                    0 => Time::new(-seconds(before), 0),
                    nanos => Time::new(-seconds(before) - 1, 1_000_000_000 - nanos),
                }
            }
        }
    }
}

fn seconds(d: Duration) -> i64 {
    i64::try_from(d.as_secs()).unwrap_or(i64::MAX)
}

impl Time {
    /// The time as std has it; `None` where std has none, or the nanoseconds are 1,000,000,000 or more.
    ///
    /// ```
    /// use appendfs_layers::Time;
    /// use std::time::{Duration, UNIX_EPOCH};
    /// assert_eq!(Time::new(-1, 500_000_000).to_system_time(), Some(UNIX_EPOCH - Duration::from_millis(500)));
    /// ```
    pub fn to_system_time(self) -> Option<SystemTime> {
        if self.nanos >= 1_000_000_000 {
            return None;
        }
        let whole = Duration::from_secs(self.seconds.unsigned_abs());
        let second = if self.seconds < 0 { UNIX_EPOCH.checked_sub(whole) } else { UNIX_EPOCH.checked_add(whole) };
        second?.checked_add(Duration::from_nanos(self.nanos.into()))
    }
}
