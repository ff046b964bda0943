//! Runs of the unchanged process_overrides as a whole, functions and sizes together, for what the answers to cases do not show.
use crate::arena::Arena;
use crate::back::{pipeline_constants::process_overrides, PipelineConstants};
use crate::expressions::*;
use crate::run::{constants, module, PANIC_AT};
use crate::statements::{block, unblock};
use crate::tables::*;
use crate::*;
use std::panic::{catch_unwind, AssertUnwindSafe};

const TWICE: &str = "case 1
g 25 0 0 0 0 / 0 0 /
g 25 1 0 0 0 / 0 0 /
o 0 - 1 4 -
o 1 - 1 4 -
z 1 1 1 0 0 / 1 - - 1 -
k '0 =5
k '1 =7
end";
const ADDED: &str = "case 2
pile keep whole
g 18 4 1 0 0 / 0 0 /
OVERRIDE
e 18 3 2147483647 0 0 / 0 0 /
e 18 3 1 0 0 / 0 0 /
e 10 0 0 0 0 / 0 0 / 0 1
r 23 0 0 0 0 / 0 0 /
r 0 2 3 0 0 / 0 0 /
r 5 0 0 0 0 / 0 0 / 2
r 24 0 0 0 0 / 0 0 /
end";
const TWO_FAULTS: &str = "case 3
pile keep trap:26:9
g 18 4 0 0 0 / 0 0 /
o 7 - 1 4 0
z 1 1 1 0 0 / 0 - - - -
e 26 0 0 0 0 / 0 0 /
r 23 0 0 0 0 / 0 0 /
r 24 0 0 0 0 / 0 0 /
end";
const NAMELESS: &str = "case 4
g 18 4 1 0 0 / 0 0 /
o - - 1 4 0
e 25 0 0 0 0 / 0 0 /
r 23 0 0 0 0 / 0 0 /
r 24 0 0 0 0 / 0 0 /
end";

fn one(text: &str) -> Case {
    let c = parse_cases(text).remove(0);
    crate::folders::set_pile(&c.pile);
    c
}
fn function(c: &Case) -> Function {
    let mut f = Function::default();
    for e in &c.e {
        f.expressions.append(expression(e), span(e));
    }
    f.body = block(&c.r, &mut 0, &Arena::new());
    f
}
fn with_function(c: &Case) -> Module {
    let mut m = module(c);
    m.functions.append(function(c), Span::UNDEFINED);
    m
}
fn settled(m: &Module, k: &PipelineConstants) -> Result<Module, String> {
    process_overrides(m, &crate::valid::ModuleInfo, None, k)
        .map(|x| x.0.into_owned())
        .map_err(|e| format!("{e:?}"))
}
/// What is settled keeps its overrides and the handles of the mesh's sizes: settled again, it reads a handle that means something else.
fn twice() {
    let c = one(TWICE);
    let k = constants(&c, false);
    let show = |n: &str, m: &Module| {
        let e = &m.entry_points[0];
        println!(
            "twice, {n}: {} overrides, {} constants, {} entries, workgroup {:?} by {:?}, {:?}",
            m.overrides.len(),
            m.constants.len(),
            m.global_expressions.len(),
            e.workgroup_size,
            e.workgroup_size_overrides,
            e.mesh_info
        );
    };
    let m = module(&c);
    show("before", &m);
    let once = settled(&m, &k).unwrap();
    show("settled", &once);
    show("settled again", &settled(&once, &k).unwrap());
}
/// Without overrides a function is left alone; with one that nothing names it is worked on.
fn bodies_without_overrides() {
    for over in ["", "o 7 - 1 4 0"] {
        let c = one(&ADDED.replace("OVERRIDE", over));
        let r = settled(&with_function(&c), &constants(&c, false)).unwrap();
        let f = &r.functions[handle(0)];
        let mut records = vec![];
        unblock(&f.body, &mut records);
        let last = &arena_back(&f.expressions)[2];
        println!(
            "with {} overrides: entry 2 has kind {} and words {:?}; {} Emits",
            c.o.len(),
            last.kind,
            last.words,
            records.iter().filter(|r| r.kind == 0).count()
        );
    }
}
/// A fault in a body comes before a size that is no size.
fn order_of_faults() {
    let c = one(TWO_FAULTS);
    let k = constants(&c, false);
    println!("a bad size: {:?}", settled(&module(&c), &k).err());
    println!(
        "a bad size and a fault in a body: {:?}",
        settled(&with_function(&c), &k).err()
    );
}
/// Clearing a table leaves its spans.
fn cleared() {
    let at = |start, end| Span {
        start,
        end,
        ..Span::UNDEFINED
    };
    let mut a: Arena<u8> = Arena::new();
    a.append(1, at(5, 6));
    a.clear();
    let h = a.append(2, at(50, 60));
    let s = a.get_span(h);
    println!("appended with the span 50 60 after a clear: {} {}", s.start, s.end);
}
/// An override with neither id nor name that a function names.
fn nameless() {
    let c = one(NAMELESS);
    let m = with_function(&c);
    let r = catch_unwind(AssertUnwindSafe(|| settled(&m, &constants(&c, false)).is_ok()));
    let at = PANIC_AT.with(|p| p.borrow().clone());
    println!("a nameless override in a function: {:?} {at}", r.ok());
}
pub fn run() {
    twice();
    bodies_without_overrides();
    order_of_faults();
    cleared();
    nameless();
}
