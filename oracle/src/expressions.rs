//! Entries as expressions of the stand-in IR, and back.
use crate::arena::{Arena, Handle};
use crate::tables::{Entry, ABSENT};
use crate::*;
use half::f16;

pub fn handle<T>(n: u32) -> Handle<T> {
    Handle::new(crate::non_max_u32::NonMaxU32::new(n).unwrap())
}
pub fn h(n: u32) -> Handle<Expression> {
    handle(n)
}
pub fn opt(n: u32) -> Option<Handle<Expression>> {
    if n == ABSENT {
        None
    } else {
        Some(h(n))
    }
}
pub fn un(x: Handle<Expression>) -> u32 {
    x.index() as u32
}
pub fn uno(x: Option<Handle<Expression>>) -> u32 {
    x.map_or(ABSENT, un)
}

pub fn literal_words(l: &Literal) -> (u32, u64) {
    match *l {
        Literal::Bool(b) => (0, b as u64),
        Literal::I16(v) => (1, v as u16 as u64),
        Literal::U16(v) => (2, v as u64),
        Literal::I32(v) => (3, v as u32 as u64),
        Literal::U32(v) => (4, v as u64),
        Literal::F16(v) => (5, v.to_bits() as u64),
        Literal::F32(v) => (6, v.to_bits() as u64),
        Literal::F64(v) => (7, v.to_bits()),
        Literal::I64(v) => (8, v as u64),
        Literal::U64(v) => (9, v),
        Literal::AbstractInt(v) => (10, v as u64),
        Literal::AbstractFloat(v) => (11, v.to_bits()),
    }
}
fn literal(w: &[u32; 4]) -> Literal {
    let b = w[1] as u64 | (w[2] as u64) << 32;
    match w[0] {
        0 => Literal::Bool(b == 1),
        1 => Literal::I16(b as u16 as i16),
        2 => Literal::U16(b as u16),
        3 => Literal::I32(b as u32 as i32),
        4 => Literal::U32(b as u32),
        5 => Literal::F16(f16::from_bits(b as u16)),
        6 => Literal::F32(f32::from_bits(b as u32)),
        7 => Literal::F64(f64::from_bits(b)),
        8 => Literal::I64(b as i64),
        9 => Literal::U64(b),
        10 => Literal::AbstractInt(b as i64),
        11 => Literal::AbstractFloat(f64::from_bits(b)),
        x => panic!("literal type {x}"),
    }
}
pub fn words_of(e: &Expression, s: &Span) -> [u32; 4] {
    let mut w = s.words;
    match e {
        Expression::Literal(l) => {
            let (t, b) = literal_words(l);
            w[0] = t;
            w[1] = b as u32;
            w[2] = (b >> 32) as u32
        }
        Expression::Constant(c) => w[0] = c.index() as u32,
        Expression::Override(o) => w[0] = o.index() as u32,
        Expression::Binary { op, .. } => w[0] = *op,
        _ => {}
    }
    w
}
pub fn span(e: &Entry) -> Span {
    Span {
        start: e.span.0,
        end: e.span.1,
        words: e.words,
        mark: 0,
    }
}
pub fn expression(e: &Entry) -> Expression {
    use Expression as X;
    let o = &e.ops;
    match e.kind {
        0 => X::Compose {
            ty: (),
            components: o.iter().map(|x| h(*x)).collect(),
        },
        1 => X::Access {
            base: h(o[0]),
            index: h(o[1]),
        },
        2 => X::AccessIndex {
            base: h(o[0]),
            index: (),
        },
        3 => X::Splat {
            size: (),
            value: h(o[0]),
        },
        4 => X::Swizzle {
            size: (),
            vector: h(o[0]),
            pattern: (),
        },
        5 => X::Load { pointer: h(o[0]) },
        6 => X::ImageSample {
            image: h(o[0]),
            sampler: h(o[1]),
            coordinate: h(o[2]),
            array_index: opt(o[3]),
            offset: opt(o[4]),
            level: match (opt(o[5]), opt(o[6])) {
                (None, None) => {
                    if e.words[0] % 2 == 0 {
                        SampleLevel::Auto
                    } else {
                        SampleLevel::Zero
                    }
                }
                (Some(x), None) => {
                    if e.words[0] % 2 == 0 {
                        SampleLevel::Exact(x)
                    } else {
                        SampleLevel::Bias(x)
                    }
                }
                (Some(x), Some(y)) => SampleLevel::Gradient { x, y },
                (None, Some(_)) => panic!("no Rust form: level y without x"),
            },
            depth_ref: opt(o[7]),
            gather: (),
            clamp_to_edge: (),
        },
        7 => X::ImageLoad {
            image: h(o[0]),
            coordinate: h(o[1]),
            array_index: opt(o[2]),
            sample: opt(o[3]),
            level: opt(o[4]),
        },
        8 => X::ImageQuery {
            image: h(o[0]),
            query: match (opt(o[1]), e.words[0] % 4) {
                (Some(l), _) => ImageQuery::Size { level: Some(l) },
                (None, 0) => ImageQuery::Size { level: None },
                (None, 1) => ImageQuery::NumLevels,
                (None, 2) => ImageQuery::NumLayers,
                _ => ImageQuery::NumSamples,
            },
        },
        9 => X::Unary { op: (), expr: h(o[0]) },
        10 => X::Binary {
            op: e.words[0],
            left: h(o[0]),
            right: h(o[1]),
        },
        11 => X::Select {
            condition: h(o[0]),
            accept: h(o[1]),
            reject: h(o[2]),
        },
        12 => X::Derivative {
            axis: (),
            ctrl: (),
            expr: h(o[0]),
        },
        13 => X::Relational {
            fun: (),
            argument: h(o[0]),
        },
        14 => X::Math {
            fun: (),
            arg: h(o[0]),
            arg1: opt(o[1]),
            arg2: opt(o[2]),
            arg3: opt(o[3]),
        },
        15 => X::As {
            expr: h(o[0]),
            kind: (),
            convert: (),
        },
        16 => X::ArrayLength(h(o[0])),
        17 => X::RayQueryGetIntersection {
            query: h(o[0]),
            committed: (),
        },
        18 => X::Literal(literal(&e.words)),
        19 => X::FunctionArgument(0),
        20 => X::GlobalVariable(0),
        21 => X::LocalVariable(0),
        22 => X::CallResult(0),
        23 => X::RayQueryProceedResult,
        24 => X::Constant(handle(e.words[0])),
        25 => X::Override(handle(e.words[0])),
        26 => X::ZeroValue(()),
        27 => X::AtomicResult { ty: (), comparison: () },
        28 => X::WorkGroupUniformLoadResult { ty: () },
        29 => X::SubgroupBallotResult,
        30 => X::SubgroupOperationResult { ty: () },
        31 => X::RayQueryVertexPositions {
            query: h(o[0]),
            committed: (),
        },
        32 => X::CooperativeLoad {
            columns: (),
            data: CooperativeData {
                pointer: h(o[0]),
                stride: h(o[1]),
            },
        },
        33 => X::CooperativeMultiplyAdd {
            a: h(o[0]),
            b: h(o[1]),
            c: h(o[2]),
        },
        k => panic!("kind {k}"),
    }
}
fn parts(e: &Expression) -> (u8, Vec<u32>) {
    use Expression as X;
    match e {
        X::Compose { components, .. } => (0, components.iter().map(|c| un(*c)).collect()),
        X::Access { base, index } => (1, vec![un(*base), un(*index)]),
        X::AccessIndex { base, .. } => (2, vec![un(*base)]),
        X::Splat { value, .. } => (3, vec![un(*value)]),
        X::Swizzle { vector, .. } => (4, vec![un(*vector)]),
        X::Load { pointer } => (5, vec![un(*pointer)]),
        X::ImageSample {
            image,
            sampler,
            coordinate,
            array_index,
            offset,
            level,
            depth_ref,
            ..
        } => {
            let (x, y) = match level {
                SampleLevel::Auto | SampleLevel::Zero => (ABSENT, ABSENT),
                SampleLevel::Exact(a) | SampleLevel::Bias(a) => (un(*a), ABSENT),
                SampleLevel::Gradient { x, y } => (un(*x), un(*y)),
            };
            (
                6,
                vec![
                    un(*image),
                    un(*sampler),
                    un(*coordinate),
                    uno(*array_index),
                    uno(*offset),
                    x,
                    y,
                    uno(*depth_ref),
                ],
            )
        }
        X::ImageLoad {
            image,
            coordinate,
            array_index,
            sample,
            level,
        } => (
            7,
            vec![
                un(*image),
                un(*coordinate),
                uno(*array_index),
                uno(*sample),
                uno(*level),
            ],
        ),
        X::ImageQuery { image, query } => (
            8,
            vec![
                un(*image),
                match query {
                    ImageQuery::Size { level } => uno(*level),
                    _ => ABSENT,
                },
            ],
        ),
        X::Unary { expr, .. } => (9, vec![un(*expr)]),
        X::Binary { left, right, .. } => (10, vec![un(*left), un(*right)]),
        X::Select {
            condition,
            accept,
            reject,
        } => (11, vec![un(*condition), un(*accept), un(*reject)]),
        X::Derivative { expr, .. } => (12, vec![un(*expr)]),
        X::Relational { argument, .. } => (13, vec![un(*argument)]),
        X::Math {
            arg, arg1, arg2, arg3, ..
        } => (14, vec![un(*arg), uno(*arg1), uno(*arg2), uno(*arg3)]),
        X::As { expr, .. } => (15, vec![un(*expr)]),
        X::ArrayLength(e) => (16, vec![un(*e)]),
        X::RayQueryGetIntersection { query, .. } => (17, vec![un(*query)]),
        X::Literal(_) => (18, vec![]),
        X::FunctionArgument(_) => (19, vec![]),
        X::GlobalVariable(_) => (20, vec![]),
        X::LocalVariable(_) => (21, vec![]),
        X::CallResult(_) => (22, vec![]),
        X::RayQueryProceedResult => (23, vec![]),
        X::Constant(_) => (24, vec![]),
        X::Override(_) => (25, vec![]),
        X::ZeroValue(_) => (26, vec![]),
        X::AtomicResult { .. } => (27, vec![]),
        X::WorkGroupUniformLoadResult { .. } => (28, vec![]),
        X::SubgroupBallotResult => (29, vec![]),
        X::SubgroupOperationResult { .. } => (30, vec![]),
        X::RayQueryVertexPositions { query, .. } => (31, vec![un(*query)]),
        X::CooperativeLoad { data, .. } => (32, vec![un(data.pointer), un(data.stride)]),
        X::CooperativeMultiplyAdd { a, b, c } => (33, vec![un(*a), un(*b), un(*c)]),
    }
}
pub fn kind_of(e: &Expression) -> u8 {
    parts(e).0
}
fn back(e: &Expression, s: &Span) -> Entry {
    let (kind, ops) = parts(e);
    Entry {
        kind,
        words: words_of(e, s),
        span: (s.start, s.end),
        ops,
    }
}
pub fn arena_back(a: &Arena<Expression>) -> Vec<Entry> {
    a.iter().map(|(x, e)| back(e, &a.get_span(x))).collect()
}
