//! Stand-in: does nothing.
pub enum KeepUnused {
    No,
    Yes,
}
pub fn compact(_module: &mut crate::Module, _keep: KeepUnused) {}
