//! Why there is no cache.

use crate::proved::cache::CacheError;
use core::fmt;

/// Why a cache can't be had. Nothing is kept of what was taken for it.
#[derive(Clone, Copy, Debug, PartialEq, Eq)]
pub enum Refused {
    /// There is no memory for it.
    Memory,
    /// The capacity is 0 or above [`MAX_CAPACITY`](crate::MAX_CAPACITY).
    Capacity,
    /// The shares leave Main no slot, or don't fit together.
    Policy,
}

impl From<CacheError> for Refused {
    fn from(refusal: CacheError) -> Refused {
        match refusal {
            CacheError::Memory => Refused::Memory,
            CacheError::Capacity => Refused::Capacity,
            CacheError::Policy => Refused::Policy,
        }
    }
}

impl fmt::Display for Refused {
    fn fmt(&self, formatter: &mut fmt::Formatter<'_>) -> fmt::Result {
        formatter.write_str(match self {
            Refused::Memory => "no memory",
            Refused::Capacity => "capacity refused",
            Refused::Policy => "policy refused",
        })
    }
}

#[cfg(feature = "std")]
impl std::error::Error for Refused {}
