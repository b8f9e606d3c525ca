//! What tells the time.

use std::sync::atomic::{AtomicU64, Ordering};
use std::sync::Arc;
use std::time::{Duration, Instant};

/// Tells the time. What it returns must not go back.
pub trait Clock {
    /// Returns how long ago some moment was, always the same.
    fn now(&self) -> Duration;
}

impl<C: Clock + ?Sized> Clock for &C {
    fn now(&self) -> Duration {
        (**self).now()
    }
}

impl<C: Clock + ?Sized> Clock for Arc<C> {
    fn now(&self) -> Duration {
        (**self).now()
    }
}

/// The system's monotonic clock.
#[derive(Clone, Copy, Debug)]
pub struct SystemClock(Instant);

impl Default for SystemClock {
    fn default() -> SystemClock {
        SystemClock(Instant::now())
    }
}

impl Clock for SystemClock {
    fn now(&self) -> Duration {
        self.0.elapsed()
    }
}

/// A clock that stands still until somebody turns it, for tests.
///
/// ```
/// use clock2q::{Builder, ExpiringCache, TurnedClock};
/// use std::sync::Arc;
/// use std::time::Duration;
///
/// let clock = Arc::new(TurnedClock::default());
/// let builder = Builder::new(100).time_to_live(Duration::from_secs(60));
/// let mut cache: ExpiringCache<_, _, _, _> = builder.clock(Arc::clone(&clock)).build()?;
/// cache.insert("seven", 7);
/// clock.turn(Duration::from_secs(59));
/// assert_eq!(cache.get("seven"), Some(&7));
/// clock.turn(Duration::from_secs(1));
/// assert_eq!(cache.get("seven"), None);
/// # Ok::<(), clock2q::Refused>(())
/// ```
#[derive(Debug, Default)]
pub struct TurnedClock {
    nanoseconds: AtomicU64,
}

impl TurnedClock {
    /// Turns the clock forward, to 584 years at most.
    pub fn turn(&self, by: Duration) {
        let by = u64::try_from(by.as_nanos()).unwrap_or(u64::MAX);
        let turned = |now: u64| Some(now.saturating_add(by));
        let (set, fetch) = (Ordering::SeqCst, Ordering::SeqCst);
        // The closure always returns a number.
        let _ = self.nanoseconds.fetch_update(set, fetch, turned);
    }
}

impl Clock for TurnedClock {
    fn now(&self) -> Duration {
        Duration::from_nanos(self.nanoseconds.load(Ordering::SeqCst))
    }
}
