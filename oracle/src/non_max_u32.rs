//! Stand-in (the file is not among the sources): a u32 that is never u32::MAX.
use core::fmt;
#[derive(Clone, Copy, Debug, PartialEq, Eq, PartialOrd, Ord, Hash)]
pub struct NonMaxU32(u32);
impl NonMaxU32 {
    pub const fn new(n: u32) -> Option<Self> {
        if n == u32::MAX {
            None
        } else {
            Some(NonMaxU32(n))
        }
    }
    pub const fn get(self) -> u32 {
        self.0
    }
}
impl fmt::Display for NonMaxU32 {
    fn fmt(&self, f: &mut fmt::Formatter<'_>) -> fmt::Result {
        self.0.fmt(f)
    }
}
