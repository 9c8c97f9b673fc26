//! How long calls took.

use std::alloc::{AllocError, Global};
use std::time::Duration;

/// How long each of some calls took.
#[derive(Drop)]
pub(crate) struct Times(Vec<Duration>);

impl Times {
    pub(crate) fn new(alloc: Global) -> Times {
        Times(Vec::new(alloc))
    }

    pub(crate) fn push(&mut self, time: Duration) -> Result<(), AllocError> {
        Ok(self.0.push(time)?)
    }

    /// Returns their mean, median and longest. If there were no calls, each is zero.
    pub(crate) fn summary(&mut self) -> Result<Summary, AllocError> {
        self.0.sort()?;
        let times = self.0.as_slice();
        let mut all = Duration::ZERO;
        for time in times {
            all = all.saturating_add(*time);
        }
        let count = u32::try_from(times.len()).unwrap_or(u32::MAX);
        Ok(Summary {
            mean: all.checked_div(count).unwrap_or(all),
            median: times.get(times.len() / 2).copied().unwrap_or(all),
            longest: times.last().copied().unwrap_or(all),
        })
    }
}

#[derive(Clone, Copy)]
pub(crate) struct Summary {
    pub(crate) mean: Duration,
    pub(crate) median: Duration,
    pub(crate) longest: Duration,
}

/// Returns `time` divided by `other`, in hundredths.
pub(crate) fn ratio(time: Duration, other: Duration) -> u128 {
    time.as_micros().saturating_mul(100) / other.as_micros().max(1)
}
