//! A case through the unchanged files.
use crate::arena::{Arena, Handle};
use crate::back::{
    opened,
    pipeline_constants::{process_overrides, PipelineConstantError as P},
    PipelineConstants,
};
use crate::expressions::{arena_back, expression, h, handle, opt, span, un, uno};
use crate::proc::{ConstantEvaluatorError as CE, ExpressionKind};
use crate::shapes::pre_emit;
use crate::statements::{block, unblock};
use crate::tables::*;
use crate::*;
use std::cell::RefCell;
use std::panic::{catch_unwind, AssertUnwindSafe};

/// What the stand-ins saw while naga ran: what it keeps to itself, or drops on a refusal.
#[derive(Default)]
pub struct Seen {
    /// The answers for the module's entries, in order: what becomes of each handle.
    pub images: Vec<u32>,
    /// How many entries of a body were answered.
    pub body_images: u32,
    /// How many sizes were read.
    size_reads: usize,
    /// The kinds that a walk left.
    kinds: Vec<u8>,
    /// The inits of overrides that were dropped, in order.
    override_inits: Vec<u32>,
    /// The entries, constants' inits and variables' inits of a module that was dropped.
    module: Option<(Vec<Entry>, Vec<u32>, Vec<u32>)>,
    /// Whether what is dropped is of interest.
    watching: bool,
}
thread_local! {
    static SEEN: RefCell<Seen> = RefCell::new(Seen::default());
    pub static PANIC_AT: RefCell<String> = RefCell::new(String::new());
}
fn seen<R>(f: impl FnOnce(&mut Seen) -> R) -> R {
    SEEN.with(|s| f(&mut s.borrow_mut()))
}
pub fn image_seen(local: bool, image: u32) {
    seen(|s| {
        if local {
            s.body_images += 1
        } else {
            s.images.push(image)
        }
    })
}
pub fn size_read() {
    seen(|s| s.size_reads += 1)
}
/// Whether a whole module is run, whose only function is there to be read afterwards.
pub fn is_watching() -> bool {
    seen(|s| s.watching)
}
pub fn kinds_dropped(k: Vec<ExpressionKind>) {
    let kinds = k
        .into_iter()
        .map(|k| match k {
            ExpressionKind::Const => 0,
            ExpressionKind::Override => 2,
            ExpressionKind::Runtime => 1,
        })
        .collect();
    seen(|s| s.kinds = kinds)
}
pub fn override_dropped(init: Option<Handle<Expression>>) {
    seen(|s| {
        if s.watching {
            s.override_inits.push(uno(init))
        }
    })
}
pub fn module_dropped(m: &Module) {
    if is_watching() {
        let parts = (arena_back(&m.global_expressions), constant_inits(m), variable_inits(m));
        seen(|s| s.module = Some(parts))
    }
}
fn constant_inits(m: &Module) -> Vec<u32> {
    m.constants.iter().map(|x| un(x.1.init)).collect()
}
fn variable_inits(m: &Module) -> Vec<u32> {
    m.global_variables.iter().map(|x| uno(x.1.init)).collect()
}

pub fn scalar(kind: u8, width: u8) -> Scalar {
    Scalar {
        kind: match kind {
            0 => ScalarKind::Sint,
            1 => ScalarKind::Uint,
            2 => ScalarKind::Float,
            3 => ScalarKind::Bool,
            k => panic!("scalar kind {k}"),
        },
        width,
    }
}
pub fn module(c: &Case) -> Module {
    let mut m = Module::default();
    for e in &c.g {
        m.global_expressions.append(expression(e), span(e));
    }
    let other = m.types.insert(
        Type {
            name: None,
            inner: TypeInner::Other,
        },
        Span::UNDEFINED,
    );
    for i in &c.c {
        m.constants.append(
            Constant {
                name: None,
                ty: other,
                init: h(*i),
            },
            Span::UNDEFINED,
        );
    }
    for o in &c.o {
        let ty = m.types.insert(
            Type {
                name: None,
                inner: TypeInner::Scalar(scalar(o.kind, o.width)),
            },
            Span::UNDEFINED,
        );
        m.overrides.append(
            Override {
                name: o.name.as_ref().map(|n| String::from_utf8(n.clone()).unwrap()),
                id: o.id,
                ty,
                init: opt(o.init),
            },
            Span::UNDEFINED,
        );
    }
    for v in &c.v {
        m.global_variables
            .append(GlobalVariable { init: opt(*v) }, Span::UNDEFINED);
    }
    // probes: one variable for each old entry, so that the handle table can be read afterwards
    for i in 0..c.g.len() {
        m.global_variables.append(
            GlobalVariable {
                init: Some(h(i as u32)),
            },
            Span::UNDEFINED,
        );
    }
    let z = &c.size_handles;
    m.entry_points.push(EntryPoint {
        name: "main".into(),
        stage: ShaderStage::Mesh,
        workgroup_size: [c.sizes[0], c.sizes[1], c.sizes[2]],
        workgroup_size_overrides: if z[..3].iter().all(|x| *x == ABSENT) {
            None
        } else {
            Some([opt(z[0]), opt(z[1]), opt(z[2])])
        },
        function: Function::default(),
        mesh_info: Some(MeshStageInfo {
            max_vertices: c.sizes[3],
            max_vertices_override: opt(z[3]),
            max_primitives: c.sizes[4],
            max_primitives_override: opt(z[4]),
        }),
    });
    m
}
/// The refusal of an evaluator's error at this handle.
fn evaluator_refusal(e: &CE, at: u32) -> Vec<u32> {
    match e {
        CE::NotImplemented(_) | CE::InvalidBinaryOpArgs => vec![13, at, 0, 0],
        CE::Fault { layer, code } => vec![13, at, *layer, *code],
        CE::RuntimeExpr => vec![14, at],
        CE::OverrideExpr => panic!("an override among the operands"),
    }
}
pub fn quiet_panics() {
    std::panic::set_hook(Box::new(|i| {
        let l = i.location().map_or(String::new(), |l| {
            format!("{}:{}", l.file().rsplit('/').next().unwrap(), l.line())
        });
        let m = i
            .payload()
            .downcast_ref::<String>()
            .cloned()
            .or_else(|| i.payload().downcast_ref::<&str>().map(|s| s.to_string()))
            .unwrap_or_default();
        PANIC_AT.with(|p| *p.borrow_mut() = format!("{l} {}", m.replace('\n', " ")));
    }));
}
/// The settings of a case as naga has them. `reverse`: put into the map in the other order.
pub fn constants(c: &Case, reverse: bool) -> PipelineConstants {
    let mut file: Vec<_> = c.file.iter().collect();
    if reverse {
        file.reverse()
    }
    let mut keys = PipelineConstants::new();
    for (k, v) in file {
        keys.insert(String::from_utf8(k.clone()).unwrap(), f64::from_bits(*v));
    }
    keys
}
/// A function whose entries are the overrides, one each, with a local variable for each to read its image from.
fn reader(c: &Case) -> Function {
    let mut f = Function::default();
    for o in 0..c.o.len() as u32 {
        let e = f.expressions.append(Expression::Override(handle(o)), Span::UNDEFINED);
        f.local_variables
            .append(LocalVariable { init: Some(e) }, Span::UNDEFINED);
    }
    f
}
/// The constant of each override, as that function has them after settling.
fn read_constants(f: &Function) -> Vec<u32> {
    let constant = |e: Handle<Expression>| match f.expressions[e] {
        Expression::Constant(c) => c.index() as u32,
        _ => panic!("an override became something else than a constant"),
    };
    f.local_variables.iter().map(|x| constant(x.1.init.unwrap())).collect()
}
/// The refusal of an error. naga's errors name neither override nor expression: those are what was worked on last.
fn refusal(c: &Case, e: P, looked_up: u32, seen: &Seen) -> Vec<u32> {
    let over = looked_up.wrapping_sub(1);
    let present: Vec<u32> = (0..5u32).filter(|i| c.size_handles[*i as usize] != ABSENT).collect();
    let size = || present[seen.size_reads - 1];
    match e {
        P::NotFound(k) => vec![6, c.file.iter().position(|f| f.0 == k.as_bytes()).unwrap() as u32],
        P::MissingValue(_) => vec![8, over],
        P::SrcNeedsToBeFinite => vec![9, over],
        P::DstRangeTooSmall => vec![10, over],
        P::ConstantEvaluatorError(e) => evaluator_refusal(&e, seen.images.len() as u32),
        P::NegativeWorkgroupSize => vec![15, size()],
        P::NegativeMeshOutputMax => vec![16, size() - 3],
        P::ValidationError(_) => unreachable!(),
    }
}
/// What was written when naga gave up. The constants past the module's own are those of the overrides that were settled, in order.
fn written(c: &Case, seen: Seen, a: &mut Answer) {
    let Some((g, constants, variables)) = seen.module else {
        return;
    };
    a.g = g;
    a.gk = seen.kinds;
    a.m = (c.c.len() as u32..constants.len() as u32).collect();
    a.c = constants;
    a.o = seen.override_inits;
    a.v = variables[..c.v.len()].to_vec();
    a.h = seen.images;
}
fn finished(c: &Case, s: &Module, kinds: Vec<u8>, a: &mut Answer) {
    a.g = arena_back(&s.global_expressions);
    a.gk = kinds;
    a.c = constant_inits(s);
    a.o = s.overrides.iter().map(|x| uno(x.1.init)).collect();
    let variables = variable_inits(s);
    a.v = variables[..c.v.len()].to_vec();
    a.h = variables[c.v.len()..].to_vec();
    let ep = &s.entry_points[0];
    let mesh = ep.mesh_info.as_ref().unwrap();
    let [x, y, z] = ep.workgroup_size;
    a.sizes = [x, y, z, mesh.max_vertices, mesh.max_primitives];
    if let Some((_, f)) = s.functions.iter().next() {
        a.m = read_constants(f)
    }
}
/// How long `process_overrides` takes on the module of a case, so many times, the module and the settings made before.
pub fn time(c: &Case, rounds: u32) -> std::time::Duration {
    crate::folders::set_pile(&c.pile);
    let m = module(c);
    let keys = constants(c, false);
    let info = crate::valid::ModuleInfo;
    let mut total = std::time::Duration::ZERO;
    for _ in 0..rounds {
        let start = std::time::Instant::now();
        let r = process_overrides(&m, &info, None, &keys);
        total += start.elapsed();
        drop(r);
    }
    total
}
/// Settles the module of a case by the unchanged `process_overrides`. `with_reader`: a function that names every override goes along,
/// so that the constant of each can be read; it cannot where an override has neither id nor name.
fn settle(c: &Case, reverse: bool, with_reader: bool, a: &mut Answer) -> Option<Module> {
    crate::folders::set_pile(&c.pile);
    let mut m = module(c);
    if with_reader {
        m.functions.append(reader(c), Span::UNDEFINED);
    }
    let keys = constants(c, reverse);
    let info = crate::valid::ModuleInfo;
    seen(|s| {
        *s = Seen {
            watching: true,
            ..Seen::default()
        }
    });
    let r = catch_unwind(AssertUnwindSafe(|| {
        process_overrides(&m, &info, None, &keys).map(|(m, _)| m.into_owned())
    }));
    let saw = seen(std::mem::take);
    match r {
        Err(_) => {
            a.settle = Outcome::Panic(PANIC_AT.with(|p| p.borrow().clone()));
            written(c, saw, a);
            None
        }
        Ok(Err(e)) => {
            a.settle = Outcome::Refused(refusal(c, e, keys.gets.get() as u32, &saw));
            written(c, saw, a);
            None
        }
        Ok(Ok(s)) => {
            a.settle = Outcome::Ok;
            if !c.o.is_empty() {
                assert!(
                    saw.images == variable_inits(&s)[c.v.len()..],
                    "the images seen are those in the table"
                )
            }
            finished(c, &s, saw.kinds, a);
            Some(s)
        }
    }
}
/// Runs a case through the unchanged Rust. `reverse`: the map's keys in the other order.
pub fn run(c: &Case, reverse: bool) -> Answer {
    let mut a = Answer::empty(c.no);
    let with_reader = !c.o.is_empty() && c.o.iter().all(|o| o.id.is_some() || o.name.is_some());
    if let Some(s) = settle(c, reverse, with_reader, &mut a) {
        if !c.r.is_empty() {
            specialise(c, s, &mut a)
        }
    }
    a
}
/// Specialises the body of a case under a settled module by the unchanged `process_function`.
fn specialise(c: &Case, mut s: Module, a: &mut Answer) {
    let mut f = Function::default();
    for e in &c.e {
        f.expressions.append(expression(e), span(e));
    }
    f.body = block(&c.r, &mut 0, &Arena::new());
    for l in &c.l {
        f.local_variables
            .append(LocalVariable { init: opt(*l) }, Span::UNDEFINED);
    }
    for i in 0..c.e.len() {
        f.local_variables.append(
            LocalVariable {
                init: Some(h(i as u32)),
            },
            Span::UNDEFINED,
        );
    }
    for (i, n) in c.n.iter().enumerate() {
        f.named_expressions.insert(h(*n), i.to_string())
    }
    seen(|s| *s = Seen::default());
    let r = catch_unwind(AssertUnwindSafe(|| {
        opened::specialise(&mut s, c.o.len(), c.c.len(), &mut f)
    }));
    let saw = seen(std::mem::take);
    a.ek = saw.kinds;
    a.e = arena_back(&f.expressions);
    match r {
        Err(_) => a.body = Outcome::Panic(PANIC_AT.with(|p| p.borrow().clone())),
        Ok(Err(e)) => a.body = Outcome::Refused(evaluator_refusal(&e, saw.body_images)),
        Ok(Ok(())) => {
            a.body = Outcome::Ok;
            unblock(&f.body, &mut a.r);
            let loc: Vec<u32> = f.local_variables.iter().map(|x| uno(x.1.init)).collect();
            a.l = loc[..c.l.len()].to_vec();
            a.t = loc[c.l.len()..].to_vec();
            a.n = f.named_expressions.0.iter().map(|x| un(x.0)).collect();
            // not returned by the Rust; counted here by the rules' words from its tables
            for r in c.r.iter().filter(|r| r.kind == 0) {
                for x in r.words[0]..r.words[1] {
                    if pre_emit(a.e[a.t[x as usize] as usize].kind) {
                        a.struck += 1
                    }
                }
            }
            a.emitted =
                a.r.iter()
                    .filter(|r| r.kind == 0)
                    .map(|r| r.words[1] - r.words[0])
                    .sum();
        }
    }
}
