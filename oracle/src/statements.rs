//! Records as statements of the stand-in IR, and back. An Open or a Close rides along as a Break with a mark in its span.
use crate::arena::{Arena, Handle, Range};
use crate::expressions::{h, opt, span, un, uno};
use crate::tables::{Entry, ABSENT};
use crate::*;

pub fn block(r: &[Entry], at: &mut usize, fake: &Arena<Expression>) -> Block {
    let mut b = Block::new();
    assert!(r[*at].kind == 23);
    b.push(
        Statement::Break,
        Span {
            mark: 1,
            ..span(&r[*at])
        },
    );
    *at += 1;
    while r[*at].kind != 24 {
        let e = &r[*at];
        *at += 1;
        let o = &e.ops;
        let gather = |x: Handle<Expression>| match e.words[0] % 6 {
            0 => GatherMode::Broadcast(x),
            1 => GatherMode::Shuffle(x),
            2 => GatherMode::ShuffleDown(x),
            3 => GatherMode::ShuffleUp(x),
            4 => GatherMode::ShuffleXor(x),
            _ => GatherMode::QuadBroadcast(x),
        };
        let atomic = |c: u32| match (opt(c), e.words[0] % 8) {
            (Some(x), _) => AtomicFunction::Exchange { compare: Some(x) },
            (None, 0) => AtomicFunction::Add,
            (None, 1) => AtomicFunction::Subtract,
            (None, 2) => AtomicFunction::And,
            (None, 3) => AtomicFunction::ExclusiveOr,
            (None, 4) => AtomicFunction::InclusiveOr,
            (None, 5) => AtomicFunction::Min,
            (None, 6) => AtomicFunction::Max,
            _ => AtomicFunction::Exchange { compare: None },
        };
        let s = match e.kind {
            0 => Statement::Emit(if e.words[0] < e.words[1] {
                Range::new_from_bounds(h(e.words[0]), h(e.words[1] - 1))
            } else {
                Range::from_index_range(0..0, fake)
            }),
            1 => Statement::Block(block(r, at, fake)),
            2 => {
                let accept = block(r, at, fake);
                Statement::If {
                    condition: h(o[0]),
                    accept,
                    reject: block(r, at, fake),
                }
            }
            3 => Statement::Switch {
                selector: h(o[0]),
                cases: (0..e.words[0])
                    .map(|_| SwitchCase {
                        body: block(r, at, fake),
                    })
                    .collect(),
            },
            4 => {
                let body = block(r, at, fake);
                Statement::Loop {
                    body,
                    continuing: block(r, at, fake),
                    break_if: opt(o[0]),
                }
            }
            5 => Statement::Return { value: opt(o[0]) },
            6 => Statement::Store {
                pointer: h(o[0]),
                value: h(o[1]),
            },
            7 => Statement::ImageStore {
                image: h(o[0]),
                coordinate: h(o[1]),
                array_index: opt(o[2]),
                value: h(o[3]),
            },
            8 => Statement::Atomic {
                pointer: h(o[0]),
                value: h(o[1]),
                result: opt(o[2]),
                fun: atomic(o[3]),
            },
            9 => Statement::ImageAtomic {
                image: h(o[0]),
                coordinate: h(o[1]),
                array_index: opt(o[2]),
                value: h(o[3]),
                fun: atomic(o[4]),
            },
            10 => Statement::WorkGroupUniformLoad {
                pointer: h(o[0]),
                result: h(o[1]),
            },
            11 => Statement::SubgroupBallot {
                predicate: opt(o[0]),
                result: h(o[1]),
            },
            12 => Statement::SubgroupCollectiveOperation {
                op: (),
                collective_op: (),
                argument: h(o[0]),
                result: h(o[1]),
            },
            13 => Statement::SubgroupGather {
                mode: match opt(o[0]) {
                    Some(x) => gather(x),
                    None => {
                        if e.words[0] % 2 == 0 {
                            GatherMode::BroadcastFirst
                        } else {
                            GatherMode::QuadSwap(())
                        }
                    }
                },
                argument: h(o[1]),
                result: h(o[2]),
            },
            14 => Statement::Call {
                function: (),
                arguments: o[..o.len() - 1].iter().map(|x| h(*x)).collect(),
                result: opt(o[o.len() - 1]),
            },
            15 => Statement::RayQuery {
                query: h(o[0]),
                fun: match (opt(o[1]), opt(o[2]), opt(o[3]), opt(o[4])) {
                    (Some(a), Some(d), None, None) => RayQueryFunction::Initialize {
                        acceleration_structure: a,
                        descriptor: d,
                    },
                    (None, None, Some(r), None) => RayQueryFunction::Proceed { result: r },
                    (None, None, None, Some(t)) => RayQueryFunction::GenerateIntersection { hit_t: t },
                    (None, None, None, None) => {
                        if e.words[0] % 2 == 0 {
                            RayQueryFunction::ConfirmIntersection
                        } else {
                            RayQueryFunction::Terminate
                        }
                    }
                    _ => panic!("no Rust form: RayQuery slots"),
                },
            },
            16 => Statement::CooperativeStore {
                target: h(o[0]),
                data: CooperativeData {
                    pointer: h(o[1]),
                    stride: h(o[2]),
                },
            },
            17 => Statement::RayPipelineFunction(RayPipelineFunction::TraceRay {
                acceleration_structure: h(o[0]),
                descriptor: h(o[1]),
                payload: h(o[2]),
            }),
            18 => Statement::Break,
            19 => Statement::Continue,
            20 => Statement::Kill,
            21 => Statement::ControlBarrier(()),
            22 => Statement::MemoryBarrier(()),
            k => panic!("record kind {k}"),
        };
        b.push(s, span(e));
    }
    b.push(
        Statement::Break,
        Span {
            mark: 2,
            ..span(&r[*at])
        },
    );
    *at += 1;
    b
}
pub fn unblock(b: &Block, out: &mut Vec<Entry>) {
    for (s, p) in b.span_iter() {
        let mut put = |kind: u8, ops: Vec<u32>| {
            out.push(Entry {
                kind,
                words: p.words,
                span: (p.start, p.end),
                ops,
            })
        };
        let compare = |f: &AtomicFunction| match f {
            AtomicFunction::Exchange { compare } => uno(*compare),
            _ => ABSENT,
        };
        match s {
            Statement::Emit(r) => {
                let r = r.index_range();
                out.push(Entry {
                    kind: 0,
                    words: [r.start, r.end, p.words[2], p.words[3]],
                    span: (p.start, p.end),
                    ops: vec![],
                })
            }
            Statement::Block(b) => {
                put(1, vec![]);
                unblock(b, out)
            }
            Statement::If {
                condition,
                accept,
                reject,
            } => {
                put(2, vec![un(*condition)]);
                unblock(accept, out);
                unblock(reject, out)
            }
            Statement::Switch { selector, cases } => {
                put(3, vec![un(*selector)]);
                for c in cases {
                    unblock(&c.body, out)
                }
            }
            Statement::Loop {
                body,
                continuing,
                break_if,
            } => {
                put(4, vec![uno(*break_if)]);
                unblock(body, out);
                unblock(continuing, out)
            }
            Statement::Return { value } => put(5, vec![uno(*value)]),
            Statement::Store { pointer, value } => put(6, vec![un(*pointer), un(*value)]),
            Statement::ImageStore {
                image,
                coordinate,
                array_index,
                value,
            } => put(7, vec![un(*image), un(*coordinate), uno(*array_index), un(*value)]),
            Statement::Atomic {
                pointer,
                value,
                result,
                fun,
            } => put(8, vec![un(*pointer), un(*value), uno(*result), compare(fun)]),
            Statement::ImageAtomic {
                image,
                coordinate,
                array_index,
                fun,
                value,
            } => put(
                9,
                vec![un(*image), un(*coordinate), uno(*array_index), un(*value), compare(fun)],
            ),
            Statement::WorkGroupUniformLoad { pointer, result } => put(10, vec![un(*pointer), un(*result)]),
            Statement::SubgroupBallot { result, predicate } => put(11, vec![uno(*predicate), un(*result)]),
            Statement::SubgroupCollectiveOperation { argument, result, .. } => {
                put(12, vec![un(*argument), un(*result)])
            }
            Statement::SubgroupGather { mode, argument, result } => put(
                13,
                vec![
                    match mode {
                        GatherMode::BroadcastFirst | GatherMode::QuadSwap(_) => ABSENT,
                        GatherMode::Broadcast(x)
                        | GatherMode::Shuffle(x)
                        | GatherMode::ShuffleDown(x)
                        | GatherMode::ShuffleUp(x)
                        | GatherMode::ShuffleXor(x)
                        | GatherMode::QuadBroadcast(x) => un(*x),
                    },
                    un(*argument),
                    un(*result),
                ],
            ),
            Statement::Call { arguments, result, .. } => {
                let mut o: Vec<u32> = arguments.iter().map(|x| un(*x)).collect();
                o.push(uno(*result));
                put(14, o)
            }
            Statement::RayQuery { query, fun } => {
                let mut o = vec![un(*query), ABSENT, ABSENT, ABSENT, ABSENT];
                match fun {
                    RayQueryFunction::Initialize {
                        acceleration_structure,
                        descriptor,
                    } => {
                        o[1] = un(*acceleration_structure);
                        o[2] = un(*descriptor)
                    }
                    RayQueryFunction::Proceed { result } => o[3] = un(*result),
                    RayQueryFunction::GenerateIntersection { hit_t } => o[4] = un(*hit_t),
                    _ => {}
                }
                put(15, o)
            }
            Statement::CooperativeStore { target, data } => {
                put(16, vec![un(*target), un(data.pointer), un(data.stride)])
            }
            Statement::RayPipelineFunction(RayPipelineFunction::TraceRay {
                acceleration_structure,
                descriptor,
                payload,
            }) => put(17, vec![un(*acceleration_structure), un(*descriptor), un(*payload)]),
            Statement::Break => put(
                match p.mark {
                    1 => 23,
                    2 => 24,
                    _ => 18,
                },
                vec![],
            ),
            Statement::Continue => put(19, vec![]),
            Statement::Kill => put(20, vec![]),
            Statement::ControlBarrier(_) => put(21, vec![]),
            Statement::MemoryBarrier(_) => put(22, vec![]),
        }
    }
}
