//! Stand-in for proc/mod.rs.
#[path = "../../naga/proc/emitter.rs"]
pub mod emitter;
pub use emitter::Emitter;

use crate::arena::{Arena, Handle};
use crate::{Constant, Expression, Literal, Span};
pub use cut::{ExpressionKind, ExpressionKindTracker};

#[derive(Debug, Default)]
pub struct Layouter;

/// Stand-in for the context by which sizes are read (`get_const_val` is in none of the sources):
/// the literal behind the handle, through any number of Constants; U32, or I32 that is not negative.
#[derive(Clone, Copy)]
pub struct GlobalCtx<'a> {
    pub constants: &'a Arena<Constant>,
    pub global_expressions: &'a Arena<Expression>,
}
impl GlobalCtx<'_> {
    pub fn get_const_val(&self, handle: Handle<Expression>) -> Result<u32, ()> {
        crate::run::size_read();
        match literal_behind(self.global_expressions, None, self.constants, handle) {
            Some(Literal::U32(v)) => Ok(v),
            Some(Literal::I32(v)) => u32::try_from(v).map_err(|_| ()),
            _ => Err(()),
        }
    }
}
pub fn literal_behind(
    entries: &Arena<Expression>,
    globals: Option<&Arena<Expression>>,
    constants: &Arena<Constant>,
    h: Handle<Expression>,
) -> Option<Literal> {
    let mut e = &entries[h];
    loop {
        match *e {
            Expression::Literal(l) => return Some(l),
            Expression::Constant(c) => e = &globals.unwrap_or(entries)[constants[c].init],
            _ => return None,
        }
    }
}

/// Stand-in for the error list: the variants that the cut text names, and the folder's fault.
#[derive(Clone, Debug, thiserror::Error)]
#[cfg_attr(test, derive(PartialEq))]
pub enum ConstantEvaluatorError {
    #[error("declined")]
    NotImplemented(String),
    #[error("declined")]
    InvalidBinaryOpArgs,
    #[error("runtime")]
    RuntimeExpr,
    #[error("override")]
    OverrideExpr,
    #[error("fault")]
    Fault { layer: u32, code: u32 },
}

pub mod cut {
    use super::{literal_behind, ConstantEvaluatorError};
    use crate::arena::{Arena, Handle, HandleVec, UniqueArena};
    use crate::{Constant, Expression, Literal, Override, Span, Type};
    include!("../../naga/proc/evaluator_extract.rs");

    impl<'a> ConstantEvaluator<'a> {
        /// Stand-in: the folder.
        fn try_eval_and_append_impl(
            &mut self,
            expr: &Expression,
            span: Span,
        ) -> Result<Handle<Expression>, ConstantEvaluatorError> {
            use crate::folders::Refusal;
            // the function that reads the overrides' constants keeps its entries as they are
            let reading = self.function_local_data().is_some() && crate::run::is_watching();
            let pile = if reading {
                crate::folders::keep()
            } else {
                crate::folders::current()
            };
            match pile.fold(self, expr, span) {
                Ok(h) => Ok(h),
                Err(Refusal::Decline) => Err(ConstantEvaluatorError::NotImplemented(String::new())),
                Err(Refusal::Fault { layer, code }) => Err(ConstantEvaluatorError::Fault { layer, code }),
            }
        }
        // Doors for the folders.
        pub fn add(&mut self, expr: Expression, span: Span) -> Handle<Expression> {
            self.append_expr(expr, span, ExpressionKind::Const)
        }
        pub fn entries(&self) -> &Arena<Expression> {
            self.expressions
        }
        /// The init of a constant, where it is a pre-emit entry of the same table.
        pub fn own_init(&self, c: Handle<Constant>) -> Option<Handle<Expression>> {
            let init = self.constants[c].init;
            (self.is_global_arena() && self.expressions[init].needs_pre_emit()).then_some(init)
        }
        pub fn behind(&self, h: Handle<Expression>) -> Option<Literal> {
            literal_behind(
                self.expressions,
                self.function_local_data().map(|d| d.global_expressions),
                self.constants,
                h,
            )
        }
    }
    /// Publishes the kinds when a walk is over.
    impl Drop for ExpressionKindTracker {
        fn drop(&mut self) {
            crate::run::kinds_dropped(self.inner.iter().map(|k| *k).collect())
        }
    }
    impl ExpressionKindTracker {
        pub fn count(&self) -> usize {
            self.inner.len()
        }
    }
}

/// A thin coat over the cut evaluator that notes what each entry became (naga's errors name no handle).
pub struct ConstantEvaluator<'a> {
    inner: cut::ConstantEvaluator<'a>,
    local: bool,
}
impl<'a> ConstantEvaluator<'a> {
    pub fn for_wgsl_module(
        module: &'a mut crate::Module,
        t: &'a mut ExpressionKindTracker,
        l: &'a mut Layouter,
        o: bool,
    ) -> Self {
        ConstantEvaluator {
            inner: cut::ConstantEvaluator::for_wgsl_module(module, t, l, o),
            local: false,
        }
    }
    pub fn for_wgsl_function(
        module: &'a mut crate::Module,
        e: &'a mut Arena<Expression>,
        t: &'a mut ExpressionKindTracker,
        l: &'a mut Layouter,
        em: &'a mut Emitter,
        b: &'a mut crate::Block,
        c: bool,
    ) -> Self {
        ConstantEvaluator {
            inner: cut::ConstantEvaluator::for_wgsl_function(module, e, t, l, em, b, c),
            local: true,
        }
    }
    pub fn try_eval_and_append(
        &mut self,
        expr: Expression,
        span: Span,
    ) -> Result<Handle<Expression>, ConstantEvaluatorError> {
        let image = self.inner.try_eval_and_append(expr, span)?;
        crate::run::image_seen(self.local, image.index() as u32);
        Ok(image)
    }
}
