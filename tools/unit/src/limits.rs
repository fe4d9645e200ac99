//! The unit's limits.

use std::ops::RangeInclusive;

/// C: the words in a workspace.
pub const WORKSPACE: RangeInclusive<usize> = 16..=2_048;

/// The largest free number.
pub const MAX_FREE: u32 = 255;

/// Tags of constructors, and of branches other than a default, which has tag 0 and binds nothing.
pub const TAGS: RangeInclusive<u32> = 1..=255;

/// The most arguments of a constructor.
pub const MAX_ARGUMENTS: u32 = 15;

/// The most variables that a branch binds.
pub const MAX_BOUND: u32 = 15;

/// The most branches of a case, a default counted.
pub const MAX_BRANCHES: u32 = 15;

/// The largest index in a table.
pub const MAX_INDEX: u32 = 32_767;

/// The largest numeral.
pub const MAX_NUMERAL: u32 = 31;

pub const MAX_BUDGET: u32 = 1_000_000;

/// The most words of a table that the program `verdict` reads.
pub const MAX_TABLE: u32 = 8_196;
