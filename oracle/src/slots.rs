//! In which order naga looks up the operands.
use crate::arena::Arena;
use crate::back::opened;
use crate::expressions::{expression, span};
use crate::run::PANIC_AT;
use crate::shapes::{EXPR, STMT};
use crate::statements::block;
use crate::tables::{Entry, ABSENT};
use crate::*;
use std::panic::{catch_unwind, AssertUnwindSafe};

/// Finds, by running, in which order the unchanged adjust_expr / adjust_stmt look up the slots:
/// every slot holds 1000 + its number, out of range; the index in the panic tells which is looked up first;
/// that one is then made good, and so on.
pub fn slots() {
    let zeros: Vec<Entry> = (0..8)
        .map(|_| Entry {
            kind: 26,
            words: [0; 4],
            span: (0, 0),
            ops: vec![],
        })
        .collect();
    let order = |exprs: Vec<Entry>,
                 recs: &dyn Fn(&[u32]) -> Option<Vec<Entry>>,
                 n: usize,
                 expr: Option<u8>,
                 shape: &[bool],
                 word: u32|
     -> Vec<u32> {
        let mut ops: Vec<u32> = (0..n)
            .map(|i| if shape[i] { 1000 + i as u32 } else { ABSENT })
            .collect();
        let mut found = Vec::new();
        loop {
            let mut f = Function::default();
            for e in &exprs {
                f.expressions.append(expression(e), span(e));
            }
            if let Some(k) = expr {
                let e = Entry {
                    kind: k,
                    words: [word, 0, 0, 0],
                    span: (0, 0),
                    ops: ops.clone(),
                };
                f.expressions.append(expression(&e), span(&e));
            }
            if let Some(r) = recs(&ops) {
                f.body = block(&r, &mut 0, &Arena::new())
            }
            let mut m = Module::default();
            crate::folders::set_pile(&["keep".into()]);
            if catch_unwind(AssertUnwindSafe(|| opened::specialise(&mut m, 0, 0, &mut f))).is_ok() {
                return found;
            }
            let p = PANIC_AT.with(|p| p.borrow().clone());
            let i: u32 = p.rsplit(' ').next().unwrap().parse::<u32>().expect(&p) - 1000;
            found.push(i);
            ops[i as usize] = 0;
        }
    };
    for k in 0..34u8 {
        let s = EXPR[k as usize].1;
        let n = if s == "*" { 3 } else { s.len() };
        if k == 24 || k == 25 {
            println!("expr {k} {} none", EXPR[k as usize].0);
            continue;
        }
        let found = order(zeros.clone(), &|_| None, n, Some(k), &vec![true; n], 0);
        println!("expr {k} {} '{s}' looked up {:?}", EXPR[k as usize].0, found);
    }
    let e0 = |kind: u8, ops: &[u32], w: u32| Entry {
        kind,
        words: [w, 0, 0, 0],
        span: (0, 0),
        ops: ops.to_vec(),
    };
    for k in 1..23u8 {
        let s = STMT[k as usize].1;
        let shapes: Vec<Vec<bool>> = if k == 15 {
            vec![
                vec![true, true, true, false, false],
                vec![true, false, false, true, false],
                vec![true, false, false, false, true],
                vec![true, false, false, false, false],
            ]
        } else if k == 14 {
            vec![vec![true; 4]]
        } else {
            vec![vec![true; s.len()]]
        };
        for sh in shapes {
            let recs = |ops: &[u32]| {
                let w = if k == 3 { 2 } else { 0 };
                let mut v = vec![e0(23, &[], 0), e0(k, ops, w)];
                // a Return of an out-of-range handle in each block would be looked up too: leave blocks empty
                for _ in 0..match k {
                    1 => 1,
                    2 | 3 | 4 => 2,
                    _ => 0,
                } {
                    v.push(e0(23, &[], 0));
                    v.push(e0(24, &[], 0))
                }
                v.push(e0(24, &[], 0));
                Some(v)
            };
            let found = order(zeros.clone(), &recs, sh.len(), None, &sh, 0);
            println!(
                "stmt {k} {} '{s}' present {:?} looked up {:?}",
                STMT[k as usize].0,
                sh.iter().map(|b| *b as u8).collect::<Vec<_>>(),
                found
            );
        }
    }
}
