//! The rules over plain tables, written from the rules alone, to be held against naga.
//! Of the refusals 1 to 5 and 17 only one is here, 4 for what an entry names: apart from that the cases are well formed, and the tables
//! have room.
use crate::tables::*;

struct T<'a> {
    entries: &'a mut Vec<Entry>,
    kinds: &'a mut Vec<u8>,
}
enum V {
    Fold(u32),
    Decline,
    Fault(u32, u32),
}

fn pre(k: u8) -> bool {
    [18, 24, 25, 26, 19, 20, 21].contains(&k)
}
/// The literal behind an entry, through Constants; globals None: the entries are the globals.
fn behind<'a>(entries: &'a [Entry], globals: Option<&'a [Entry]>, consts: &[u32], h: u32) -> Option<[u32; 3]> {
    let mut e = &entries[h as usize];
    while e.kind == 24 {
        e = &globals.unwrap_or(entries)[consts[e.words[0] as usize] as usize]
    }
    if e.kind == 18 {
        Some([e.words[0], e.words[1], e.words[2]])
    } else {
        None
    }
}
fn fold(pile: &[String], t: &mut T, globals: Option<&[Entry]>, consts: &[u32], e: &Entry) -> V {
    let top = pile.len() - 1;
    let add = |t: &mut T, e: Entry| {
        t.entries.push(e);
        t.kinds.push(0);
        V::Fold(t.entries.len() as u32 - 1)
    };
    match pile[top].as_str() {
        "keep" => {
            return if [18, 26, 24, 0].contains(&e.kind) {
                add(t, e.clone())
            } else {
                V::Decline
            }
        }
        "whole" => {
            if e.kind == 10 && e.words[0] <= 2 {
                if let (Some(a), Some(b)) = (
                    behind(t.entries, globals, consts, e.ops[0]),
                    behind(t.entries, globals, consts, e.ops[1]),
                ) {
                    if a[0] == b[0] && (a[0] == 3 || a[0] == 4) {
                        let (x, y) = (a[1] as u64, b[1] as u64);
                        let m = 1u64 << 32;
                        let r = match e.words[0] {
                            0 => (x + y) % m,
                            1 => (m + x - y) % m,
                            _ => (x * y) % m,
                        };
                        return add(
                            t,
                            Entry {
                                kind: 18,
                                words: [a[0], r as u32, 0, 0],
                                span: e.span,
                                ops: vec![],
                            },
                        );
                    }
                }
            }
        }
        "find" => {
            if pre(e.kind) {
                if let Some(i) = t.entries.iter().position(|x| x.kind == e.kind && x.words == e.words) {
                    return V::Fold(i as u32);
                }
            }
        }
        "padding" => {
            if e.kind == 0 {
                add(
                    t,
                    Entry {
                        kind: 26,
                        words: e.words,
                        span: e.span,
                        ops: vec![],
                    },
                );
                return add(t, e.clone());
            }
            if e.kind == 24 && globals.is_none() {
                let init = consts[e.words[0] as usize];
                if pre(t.entries[init as usize].kind) {
                    return V::Fold(init);
                }
            }
        }
        trap => {
            let p: Vec<u32> = trap[5..].split(':').map(|s| s.parse().unwrap()).collect();
            if e.kind as u32 == p[0] {
                return V::Fault(top as u32, p[1]);
            }
        }
    }
    fold(&pile[..top], t, globals, consts, e)
}
/// type_of_with_expr, Const 0 or Runtime 1
fn kind_of(kinds: &[u8], e: &Entry) -> u8 {
    match e.kind {
        18 | 24 | 26 => 0,
        0 | 1 | 2 | 3 | 4 | 9 | 10 | 11 | 13 | 14 | 15 | 16 => e
            .ops
            .iter()
            .filter(|o| **o != ABSENT)
            .map(|o| kinds[*o as usize])
            .max()
            .unwrap_or(0),
        _ => 1,
    }
}
fn image(tab: &[u32], h: u32) -> u32 {
    if h == ABSENT {
        ABSENT
    } else {
        tab[h as usize]
    }
}

pub enum Conv {
    Lit(u32, u64),
    NotFinite,
    TooSmall,
    Other,
}
fn round(x: f64, top: u32, val: fn(u32) -> f64) -> Option<u32> {
    let a = x.abs();
    let (mut lo, mut hi) = (0u32, top + 1); // val(lo) <= a
    while hi - lo > 1 {
        let mid = (lo + hi) / 2;
        if val(mid) <= a {
            lo = mid
        } else {
            hi = mid
        }
    }
    let p = if lo == top {
        top
    } else {
        let m = (val(lo) + val(lo + 1)) / 2.0; // exact in f64
        if a < m {
            lo
        } else if a > m {
            lo + 1
        } else {
            lo + (lo & 1)
        }
    };
    if p == top {
        None
    } else {
        Some(p)
    }
}
fn val32(p: u32) -> f64 {
    if p == 0x7f80_0000 {
        2f64.powi(128)
    } else {
        f32::from_bits(p) as f64
    }
}
fn val16(p: u32) -> f64 {
    if p == 0x7c00 {
        return 65536.0;
    }
    let (e, f) = (p >> 10, p & 1023);
    if e == 0 {
        f as f64 * 2f64.powi(-24)
    } else {
        (1024 + f) as f64 * 2f64.powi(e as i32 - 25)
    }
}
pub fn convert(bits: u64, kind: u8, width: u8) -> Conv {
    let x = f64::from_bits(bits);
    let t = match (kind, width) {
        (3, 1) => 0,
        (0, 2) => 1,
        (1, 2) => 2,
        (0, 4) => 3,
        (1, 4) => 4,
        (2, 2) => 5,
        (2, 4) => 6,
        (2, 8) => 7,
        _ => return Conv::Other,
    };
    if t == 0 {
        return Conv::Lit(0, (x != 0.0 && !x.is_nan()) as u64);
    }
    if !x.is_finite() {
        return Conv::NotFinite;
    }
    let sign = bits >> 63;
    if t <= 4 {
        let y = if x < 0.0 { x.ceil() } else { x.floor() };
        let (lo, hi, mask) = match t {
            1 => (-32768.0, 32767.0, 0xffff),
            2 => (0.0, 65535.0, 0xffff),
            3 => (-2147483648.0, 2147483647.0, 0xffff_ffffu64),
            _ => (0.0, 4294967295.0, 0xffff_ffff),
        };
        return if y < lo || y > hi {
            Conv::TooSmall
        } else {
            Conv::Lit(t, (y as i64 as u64) & mask)
        };
    }
    match t {
        5 => round(x, 0x7c00, val16).map_or(Conv::TooSmall, |p| Conv::Lit(5, p as u64 | sign << 15)),
        6 => round(x, 0x7f80_0000, val32).map_or(Conv::TooSmall, |p| Conv::Lit(6, p as u64 | sign << 31)),
        _ => Conv::Lit(7, bits),
    }
}
pub fn number(key: &[u8]) -> Option<u16> {
    if key.is_empty() || !key.iter().all(|b| b.is_ascii_digit()) || (key[0] == b'0' && key.len() > 1) {
        return None;
    }
    std::str::from_utf8(key).unwrap().parse::<u16>().ok()
}
pub fn takes(o: &Over, key: &[u8]) -> bool {
    match (o.id, &o.name) {
        (Some(i), _) => number(key) == Some(i),
        (None, Some(n)) => n == key,
        _ => false,
    }
}
fn settle_one(c: &Case, a: &mut Answer) -> Result<(), Vec<u32>> {
    let n = a.m.len();
    let o = &c.o[n];
    let init = if let Some((_, v)) = c.file.iter().find(|(k, _)| takes(o, k)) {
        match convert(*v, o.kind, o.width) {
            Conv::Other => return Err(vec![11, n as u32]),
            Conv::NotFinite => return Err(vec![9, n as u32]),
            Conv::TooSmall => return Err(vec![10, n as u32]),
            Conv::Lit(t, b) => {
                a.g.push(Entry {
                    kind: 18,
                    words: [t, b as u32, (b >> 32) as u32, 0],
                    span: (0, 0),
                    ops: vec![],
                });
                a.gk.push(0);
                a.g.len() as u32 - 1
            }
        }
    } else if o.init == ABSENT {
        return Err(vec![8, n as u32]);
    } else if o.init as usize >= a.h.len() {
        return Err(vec![12, n as u32]);
    } else {
        a.h[o.init as usize]
    };
    a.m.push(a.c.len() as u32);
    a.c.push(init);
    a.o[n] = init;
    Ok(())
}
fn walk(c: &Case, a: &mut Answer, mapped: &mut Vec<bool>) -> Result<(), Vec<u32>> {
    for (old, e) in c.g.iter().enumerate() {
        let mut e = e.clone();
        if e.kind == 25 {
            while a.m.len() <= e.words[0] as usize {
                settle_one(c, a)?
            }
            e.kind = 24;
            e.words[0] = a.m[e.words[0] as usize];
        } else if e.kind == 24 && !mapped[e.words[0] as usize] {
            let k = e.words[0] as usize;
            mapped[k] = true;
            a.c[k] = a.h[a.c[k] as usize];
        }
        for o in e.ops.iter_mut() {
            *o = image(&a.h, *o)
        }
        if kind_of(&a.gk, &e) == 1 {
            return Err(vec![14, old as u32]);
        }
        match fold(
            &c.pile,
            &mut T {
                entries: &mut a.g,
                kinds: &mut a.gk,
            },
            None,
            &a.c,
            &e,
        ) {
            V::Fold(h) => a.h.push(h),
            V::Decline => return Err(vec![13, old as u32, 0, 0]),
            V::Fault(l, k) => return Err(vec![13, old as u32, l, k]),
        }
    }
    while a.m.len() < c.o.len() {
        settle_one(c, a)?
    }
    for k in 0..c.c.len() {
        if !mapped[k] {
            a.c[k] = a.h[a.c[k] as usize]
        }
    }
    for v in a.v.iter_mut() {
        *v = image(&a.h, *v)
    }
    for i in 0..5 {
        if c.size_handles[i] == ABSENT {
            continue;
        }
        let n = match behind(&a.g, None, &a.c, a.h[c.size_handles[i] as usize]) {
            Some([4, n, _]) => Some(n),
            Some([3, n, _]) if n < 0x8000_0000 => Some(n),
            _ => None,
        };
        match n {
            Some(n) if n > 0 || i >= 3 => a.sizes[i] = n,
            _ => {
                return Err(if i < 3 {
                    vec![15, i as u32]
                } else {
                    vec![16, i as u32 - 3]
                })
            }
        }
    }
    Ok(())
}
/// Whether an entry names a constant or an override that is not there, or a constant whose init is not below it.
fn misnames(c: &Case, h: usize) -> bool {
    let number = c.g[h].words[0] as usize;
    match c.g[h].kind {
        24 => number >= c.c.len() || c.c[number] as usize >= h,
        25 => number >= c.o.len(),
        _ => false,
    }
}
pub fn run(c: &Case) -> Answer {
    let mut a = Answer::empty(c.no);
    if let Some(h) = (0..c.g.len()).find(|h| misnames(c, *h)) {
        a.settle = Outcome::Refused(vec![4, 0, h as u32]);
        return a;
    }
    for (i, (k, _)) in c.file.iter().enumerate() {
        if !c.o.iter().any(|o| takes(o, k)) {
            a.settle = Outcome::Refused(vec![6, i as u32]);
            return a;
        }
    }
    if let Some(i) = c.o.iter().position(|o| o.id.is_none() && o.name.is_none()) {
        a.settle = Outcome::Refused(vec![7, i as u32]);
        return a;
    }
    a.c = c.c.clone();
    a.v = c.v.clone();
    a.sizes = c.sizes;
    a.o = c.o.iter().map(|o| o.init).collect();
    if c.o.is_empty() {
        a.g = c.g.clone();
        a.h = (0..c.g.len() as u32).collect();
    } else {
        let mut mapped = vec![false; c.c.len()];
        if let Err(e) = walk(c, &mut a, &mut mapped) {
            a.settle = Outcome::Refused(e);
            return a;
        }
    }
    a.settle = Outcome::Ok;
    if c.r.is_empty() {
        return a;
    }
    for (old, e) in c.e.iter().enumerate() {
        let mut e = e.clone();
        if e.kind == 25 {
            e.kind = 24;
            e.words[0] = a.m[e.words[0] as usize]
        }
        for o in e.ops.iter_mut() {
            *o = image(&a.t, *o)
        }
        let v = if kind_of(&a.ek, &e) == 1 {
            V::Decline
        } else {
            fold(
                &c.pile,
                &mut T {
                    entries: &mut a.e,
                    kinds: &mut a.ek,
                },
                Some(&a.g),
                &a.c,
                &e,
            )
        };
        match v {
            V::Fold(h) => a.t.push(h),
            V::Decline => {
                a.t.push(a.e.len() as u32);
                a.e.push(e);
                a.ek.push(1)
            }
            V::Fault(l, k) => {
                a.body = Outcome::Refused(vec![13, old as u32, l, k]);
                return a;
            }
        }
    }
    for r in &c.r {
        let mut r = r.clone();
        if r.kind == 0 {
            let mut seq = Vec::new();
            for x in r.words[0]..r.words[1] {
                let y = a.t[x as usize];
                if pre(a.e[y as usize].kind) {
                    a.struck += 1
                } else {
                    seq.push(y)
                }
            }
            a.emitted += seq.len() as u32;
            let mut i = 0;
            while i < seq.len() {
                let mut j = i + 1;
                while j < seq.len() && seq[j] == seq[j - 1] + 1 {
                    j += 1
                }
                a.r.push(Entry {
                    words: [seq[i], seq[j - 1] + 1, r.words[2], r.words[3]],
                    ..r.clone()
                });
                i = j;
            }
        } else {
            for o in r.ops.iter_mut() {
                *o = image(&a.t, *o)
            }
            a.r.push(r);
        }
    }
    a.l = c.l.iter().map(|x| image(&a.t, *x)).collect();
    a.n = c.n.iter().map(|x| image(&a.t, *x)).collect();
    a.body = Outcome::Ok;
    a
}
