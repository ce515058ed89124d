//! The flags of IEEE 754.

use core::fmt;
use core::ops::{BitOr, BitOrAssign};

/// The flags raised so far, as IEEE 754 has them. A call adds its own to the status that it is
/// given, and none takes one away. Begin with [`Status::NONE`].
///
/// ```
/// use plate::{Operation, Rounding, Status};
///
/// let mut status = Status::NONE;
/// for x in [0.0, 3.0, 4.0] {
///     plate::binary32(Operation::Reciprocal, Rounding::Nearest, x, &mut status);
/// }
/// assert!(status.contains(Status::DIVISION_BY_ZERO));
/// assert_eq!(status.to_string(), "division by zero, inexact");
/// ```
#[derive(Clone, Copy, Debug, Default, PartialEq, Eq, Hash)]
pub struct Status(u8);

impl Status {
    /// No flag
    pub const NONE: Status = Status(0);
    /// A root of a negative number, or a signalling NaN
    pub const INVALID: Status = Status(1);
    /// Reciprocal or inverse root of 0
    pub const DIVISION_BY_ZERO: Status = Status(2);
    /// The result is beyond the greatest finite number
    pub const OVERFLOW: Status = Status(4);
    /// Inexact, and below the least normal number
    pub const UNDERFLOW: Status = Status(8);
    /// The answer is not the exact result
    pub const INEXACT: Status = Status(16);

    /// The flags of a number, in which bits of no flag do not count.
    #[inline]
    pub const fn from_number(number: u8) -> Status {
        Status(number & 31)
    }

    /// The sum of the flags, as the C functions have it.
    #[inline]
    pub const fn number(self) -> u8 {
        self.0
    }

    /// Whether all of these flags are raised.
    #[inline]
    pub const fn contains(self, flags: Status) -> bool {
        self.0 & flags.0 == flags.0
    }
}

impl BitOr for Status {
    type Output = Status;

    fn bitor(self, other: Status) -> Status {
        Status(self.0 | other.0)
    }
}

impl BitOrAssign for Status {
    fn bitor_assign(&mut self, other: Status) {
        *self = *self | other;
    }
}

const NAMES: [(Status, &str); 5] = [
    (Status::INVALID, "invalid"),
    (Status::DIVISION_BY_ZERO, "division by zero"),
    (Status::OVERFLOW, "overflow"),
    (Status::UNDERFLOW, "underflow"),
    (Status::INEXACT, "inexact"),
];

/// The names of the flags.
impl fmt::Display for Status {
    fn fmt(&self, f: &mut fmt::Formatter<'_>) -> fmt::Result {
        let mut raised = NAMES.iter().filter(|(flag, _)| self.contains(*flag));
        let Some((_, first)) = raised.next() else {
            return f.write_str("no flag");
        };
        f.write_str(first)?;
        raised.try_for_each(|(_, name)| write!(f, ", {name}"))
    }
}
