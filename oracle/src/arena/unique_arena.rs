//! Stand-in: a Vec with linear search.
use super::handle::Handle;
use crate::Span;
use core::{fmt, ops};
#[derive(Clone)]
pub struct UniqueArena<T> {
    data: Vec<T>,
}
impl<T> Default for UniqueArena<T> {
    fn default() -> Self {
        UniqueArena { data: Vec::new() }
    }
}
impl<T: fmt::Debug> fmt::Debug for UniqueArena<T> {
    fn fmt(&self, f: &mut fmt::Formatter<'_>) -> fmt::Result {
        self.data.fmt(f)
    }
}
impl<T: PartialEq> UniqueArena<T> {
    pub fn insert(&mut self, v: T, _span: Span) -> Handle<T> {
        if let Some(i) = self.data.iter().position(|d| *d == v) {
            return Handle::from_usize(i);
        }
        self.data.push(v);
        Handle::from_usize(self.data.len() - 1)
    }
}
impl<T> ops::Index<Handle<T>> for UniqueArena<T> {
    type Output = T;
    fn index(&self, h: Handle<T>) -> &T {
        &self.data[h.index()]
    }
}
/// For the harness: a handle from a number (Handle::new is pub(crate), Handle::from_usize pub(super)).
pub fn handle_of<T>(n: u32) -> Handle<T> {
    Handle::from_usize(n as usize)
}
