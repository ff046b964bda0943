//! Stand-in for naga's Span. Besides start and end it carries, as a passenger that no naga
//! code reads, the words of the entry or record (naga's variants have no room for unread words)
//! and a mark for Open/Close.
#[derive(Clone, Copy, Debug, Default, PartialEq)]
pub struct Span {
    pub start: u32,
    pub end: u32,
    pub words: [u32; 4],
    pub mark: u8,
}
impl Span {
    pub const UNDEFINED: Self = Span {
        start: 0,
        end: 0,
        words: [0; 4],
        mark: 0,
    };
    pub fn subsume(&mut self, other: Self) {
        if self.start == 0 && self.end == 0 {
            *self = other
        } else if !(other.start == 0 && other.end == 0) {
            self.start = self.start.min(other.start);
            self.end = self.end.max(other.end);
        }
    }
}
#[derive(Clone, Debug)]
#[cfg_attr(test, derive(PartialEq))]
pub struct WithSpan<E> {
    pub inner: E,
}
impl<E> core::fmt::Display for WithSpan<E> {
    fn fmt(&self, f: &mut core::fmt::Formatter<'_>) -> core::fmt::Result {
        f.write_str("WithSpan")
    }
}
