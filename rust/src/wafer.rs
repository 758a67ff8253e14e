//! The wafers that a carrier waits for (request P8).
use core::fmt;
use core::hash::{Hash, Hasher};

/// The most wafers of an input.
pub const WAFERS: usize = 25;

/// The times of a wafer, in seconds. Each is a whole multiple of 1/1024 from 0 up to but not including 1,048,576; any
/// other is answered with [`Refusal::TimeOutOfRange`](crate::Refusal::TimeOutOfRange). Minus zero counts as zero.
///
/// Wafers are equal when their times have the same bits: NaN is itself, and minus zero isn't zero.
///
/// ```
/// use hawsermole::Wafer;
///
/// let wafer = Wafer { process: 90.5, handling: 12.25 };
/// assert_eq!(wafer.to_string(), "90.5+12.25");
/// assert_ne!(wafer, Wafer { handling: 12.0, ..wafer });
/// ```
#[derive(Clone, Copy, Debug)]
#[repr(C)]
pub struct Wafer {
    /// How long it is processed.
    pub process: f64,
    /// How long it is on its way.
    pub handling: f64,
}

impl Wafer {
    fn bits(&self) -> [u64; 2] {
        [self.process.to_bits(), self.handling.to_bits()]
    }

    /// The times of wafers as the archive takes them: process, handling and so on.
    pub(crate) fn times(wafers: &[Wafer]) -> &[f64] {
        // SAFETY: a wafer is two floats one after the other, as C lays them out, without anything between or behind.
        unsafe { core::slice::from_raw_parts(wafers.as_ptr().cast(), 2 * wafers.len()) }
    }
}

impl PartialEq for Wafer {
    fn eq(&self, other: &Wafer) -> bool {
        self.bits() == other.bits()
    }
}

impl Eq for Wafer {}

impl Hash for Wafer {
    fn hash<H: Hasher>(&self, state: &mut H) {
        self.bits().hash(state);
    }
}

/// Both times in seconds, as a script has them: `90.5+12.25`.
impl fmt::Display for Wafer {
    fn fmt(&self, f: &mut fmt::Formatter<'_>) -> fmt::Result {
        write!(f, "{}+{}", self.process, self.handling)
    }
}

#[cfg(test)]
mod tests {
    use super::*;

    const fn wafer(process: f64, handling: f64) -> Wafer {
        Wafer { process, handling }
    }

    #[test]
    fn times_stand_one_after_the_other() {
        let wafers = [wafer(1.0, 2.0), wafer(3.0, 4.0), wafer(5.0, 6.0)];
        assert_eq!(Wafer::times(&wafers), [1.0, 2.0, 3.0, 4.0, 5.0, 6.0]);
        assert!(Wafer::times(&[]).is_empty());
        assert_eq!((size_of::<Wafer>(), align_of::<Wafer>()), (16, align_of::<f64>()));
    }

    #[test]
    fn wafers_are_equal_by_their_bits() {
        assert_eq!(wafer(f64::NAN, 0.0), wafer(f64::NAN, 0.0));
        assert_ne!(wafer(0.0, 0.0), wafer(-0.0, 0.0));
        assert_ne!(wafer(0.0, 0.0), wafer(0.0, -0.0));
    }
}
