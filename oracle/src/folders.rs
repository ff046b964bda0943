//! The interface of a folder as a Rust trait, and the folders: Keep, Whole, Find, Padding and Trap.
use crate::arena::Handle;
use crate::expressions::{kind_of, words_of};
use crate::proc::cut::ConstantEvaluator;
use crate::{Expression, Literal, Span};
use std::cell::RefCell;
use std::rc::Rc;

pub enum Refusal {
    Decline,
    Fault { layer: u32, code: u32 },
}
pub trait Folder {
    fn fold(&self, ev: &mut ConstantEvaluator<'_>, e: &Expression, span: Span) -> Result<Handle<Expression>, Refusal>;
}
pub struct Keep;
impl Folder for Keep {
    fn fold(&self, ev: &mut ConstantEvaluator<'_>, e: &Expression, span: Span) -> Result<Handle<Expression>, Refusal> {
        match e {
            Expression::Literal(_)
            | Expression::ZeroValue(_)
            | Expression::Constant(_)
            | Expression::Compose { .. } => Ok(ev.add(e.clone(), span)),
            _ => Err(Refusal::Decline),
        }
    }
}
pub struct Whole(pub Rc<dyn Folder>);
impl Folder for Whole {
    fn fold(&self, ev: &mut ConstantEvaluator<'_>, e: &Expression, span: Span) -> Result<Handle<Expression>, Refusal> {
        if let Expression::Binary { op, left, right } = *e {
            let r = match (op, ev.behind(left), ev.behind(right)) {
                (0, Some(Literal::I32(a)), Some(Literal::I32(b))) => Some(Literal::I32(a.wrapping_add(b))),
                (1, Some(Literal::I32(a)), Some(Literal::I32(b))) => Some(Literal::I32(a.wrapping_sub(b))),
                (2, Some(Literal::I32(a)), Some(Literal::I32(b))) => Some(Literal::I32(a.wrapping_mul(b))),
                (0, Some(Literal::U32(a)), Some(Literal::U32(b))) => Some(Literal::U32(a.wrapping_add(b))),
                (1, Some(Literal::U32(a)), Some(Literal::U32(b))) => Some(Literal::U32(a.wrapping_sub(b))),
                (2, Some(Literal::U32(a)), Some(Literal::U32(b))) => Some(Literal::U32(a.wrapping_mul(b))),
                _ => None,
            };
            if let Some(l) = r {
                return Ok(ev.add(Expression::Literal(l), Span { words: [0; 4], ..span }));
            }
        }
        self.0.fold(ev, e, span)
    }
}
pub struct Find(pub Rc<dyn Folder>);
impl Folder for Find {
    fn fold(&self, ev: &mut ConstantEvaluator<'_>, e: &Expression, span: Span) -> Result<Handle<Expression>, Refusal> {
        if e.needs_pre_emit() {
            let want = (kind_of(e), words_of(e, &span));
            let entries = ev.entries();
            if let Some((h, _)) = entries
                .iter()
                .find(|(h, x)| (kind_of(x), words_of(x, &entries.get_span(*h))) == want)
            {
                return Ok(h);
            }
        }
        self.0.fold(ev, e, span)
    }
}
/// Faults with its code on every Const entry of one kind.
pub struct Trap {
    pub below: Rc<dyn Folder>,
    pub layer: u32,
    pub kind: u8,
    pub code: u32,
}
impl Folder for Trap {
    fn fold(&self, ev: &mut ConstantEvaluator<'_>, e: &Expression, span: Span) -> Result<Handle<Expression>, Refusal> {
        if kind_of(e) == self.kind {
            return Err(Refusal::Fault {
                layer: self.layer,
                code: self.code,
            });
        }
        self.below.fold(ev, e, span)
    }
}
/// Answers a constant of the module's own table by its init, where that is pre-emit, and adds a ZeroValue before each Compose, with its
/// words.
pub struct Padding(pub Rc<dyn Folder>);
impl Folder for Padding {
    fn fold(&self, ev: &mut ConstantEvaluator<'_>, e: &Expression, span: Span) -> Result<Handle<Expression>, Refusal> {
        match *e {
            Expression::Compose { .. } => {
                ev.add(Expression::ZeroValue(()), span);
                return Ok(ev.add(e.clone(), span));
            }
            Expression::Constant(c) => {
                if let Some(init) = ev.own_init(c) {
                    return Ok(init);
                }
            }
            _ => {}
        }
        self.0.fold(ev, e, span)
    }
}
thread_local!(static PILE: RefCell<Option<Rc<dyn Folder>>> = RefCell::new(None));
pub fn keep() -> Rc<dyn Folder> {
    Rc::new(Keep)
}
pub fn current() -> Rc<dyn Folder> {
    PILE.with(|p| p.borrow().clone().unwrap())
}
pub fn set_pile(names: &[String]) {
    let mut f: Rc<dyn Folder> = Rc::new(Keep);
    for (i, n) in names.iter().enumerate() {
        f = match n.as_str() {
            "keep" => {
                assert!(i == 0);
                f
            }
            "whole" => Rc::new(Whole(f)),
            "find" => Rc::new(Find(f)),
            "padding" => Rc::new(Padding(f)),
            t => {
                let p: Vec<u32> = t
                    .strip_prefix("trap:")
                    .expect("layer")
                    .split(':')
                    .map(|s| s.parse().unwrap())
                    .collect();
                Rc::new(Trap {
                    below: f,
                    layer: i as u32,
                    kind: p[0] as u8,
                    code: p[1],
                })
            }
        };
    }
    PILE.with(|p| *p.borrow_mut() = Some(f));
}
