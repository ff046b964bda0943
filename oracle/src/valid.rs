//! Stand-in: validation answers yes.
use crate::{Module, WithSpan};
#[derive(Clone, Debug, Default)]
pub struct ModuleInfo;
#[derive(Clone, Debug)]
#[cfg_attr(test, derive(PartialEq))]
pub enum ValidationError {}
pub struct ValidationFlags;
impl ValidationFlags {
    pub fn all() -> Self {
        ValidationFlags
    }
}
pub struct Capabilities;
impl Capabilities {
    pub fn all() -> Self {
        Capabilities
    }
}
pub struct Validator;
impl Validator {
    pub fn new(_: ValidationFlags, _: Capabilities) -> Self {
        Validator
    }
    pub fn validate_resolved_overrides(&mut self, _: &Module) -> Result<ModuleInfo, WithSpan<ValidationError>> {
        Ok(ModuleInfo)
    }
}
