//! Random cases from a seed. None is refused with 1 to 5, 7, 11, 12 or 17.
use crate::shapes::{EXPR, STMT};
use crate::tables::*;

pub struct Rng(pub u64);
impl Rng {
    pub fn next(&mut self) -> u64 {
        // splitmix64
        self.0 = self.0.wrapping_add(0x9e37_79b9_7f4a_7c15);
        let mut z = self.0;
        z = (z ^ (z >> 30)).wrapping_mul(0xbf58_476d_1ce4_e5b9);
        z = (z ^ (z >> 27)).wrapping_mul(0x94d0_49bb_1331_11eb);
        z ^ (z >> 31)
    }
    pub fn below(&mut self, n: u64) -> u64 {
        self.next() % n
    }
    pub fn one_in(&mut self, n: u64) -> bool {
        self.below(n) == 0
    }
}
const TYPES: [(u8, u8); 8] = [(3, 1), (0, 2), (1, 2), (0, 4), (1, 4), (2, 2), (2, 4), (2, 8)];

fn value(r: &mut Rng, kind: u8, width: u8) -> u64 {
    let ends: [f64; 24] = [
        0.0,
        -0.0,
        0.5,
        -0.5,
        -0.99,
        1.0,
        -1.0,
        32767.9,
        32768.0,
        -32768.9,
        -32769.0,
        65535.9,
        65536.0,
        2147483647.5,
        2147483648.0,
        -2147483648.9,
        -2147483649.0,
        4294967295.9,
        4294967296.0,
        65519.0,
        65520.0,
        1.0 + 0.00048828125,
        f64::MAX,
        f64::MIN_POSITIVE,
    ];
    match r.below(20) {
        0 => f64::NAN.to_bits(),
        1 => {
            if r.one_in(2) {
                f64::INFINITY.to_bits()
            } else {
                f64::NEG_INFINITY.to_bits()
            }
        }
        2 => r.next(),
        3 => ends[r.below(24) as usize].to_bits(),
        4 if kind == 2 => {
            // near a tie of F16 or F32
            let v = if width == 2 {
                let p = r.below(0x7c00);
                f64::from_bits((1008 + (p >> 10)) << 52 | (p & 1023) << 42 | 1 << 41)
            } else {
                let p = r.below(0x7f80_0000) as u32;
                f64::from_bits((f32::from_bits(p) as f64).to_bits() | 1 << 28)
            };
            let b = v.to_bits().wrapping_add(r.below(3)).wrapping_sub(1);
            b | r.below(2) << 63
        }
        5 if kind == 2 && width == 2 => (((r.below(4096) as f64) / 2.0) * 2f64.powi(-24)).to_bits() | r.below(2) << 63, // subnormal ties
        _ => {
            let v = match (kind, width) {
                (0, 2) => r.below(65536) as f64 - 32768.0,
                (1, 2) => r.below(65536) as f64,
                (0, _) => r.next() as i32 as f64,
                (1, _) => r.next() as u32 as f64,
                (2, 2) => (r.below(130000) as f64 - 65000.0) / (1 + r.below(1000)) as f64,
                _ => (r.next() as i32 as f64) / (1 + r.below(1000)) as f64,
            };
            let v = if r.one_in(3) && kind < 2 {
                v + 0.25
            } else if r.one_in(2) {
                (r.below(9)) as f64
            } else {
                v
            };
            v.to_bits()
        }
    }
}
fn lit(r: &mut Rng) -> [u32; 4] {
    let w3 = if r.one_in(4) { r.below(3) as u32 } else { 0 };
    let t = if r.one_in(4) {
        r.below(12) as u32
    } else {
        3 + r.below(2) as u32
    };
    let b = if r.one_in(3) { r.next() } else { r.below(6) };
    match t {
        0 => [0, (b & 1) as u32, 0, w3],
        1 | 2 | 5 => [t, (b & 0xffff) as u32, 0, w3],
        3 | 4 | 6 => [t, b as u32, 0, w3],
        _ => [t, b as u32, (b >> 32) as u32, w3],
    }
}
fn sp(r: &mut Rng) -> (u32, u32) {
    let s = r.below(500) as u32;
    (s, s + r.below(40) as u32)
}
fn junk(r: &mut Rng) -> [u32; 4] {
    if r.one_in(2) {
        [0; 4]
    } else {
        [r.below(9) as u32, r.below(3) as u32, r.next() as u32, r.below(3) as u32]
    }
}
/// operand lists of an entry of this kind over handles below `n` (n > 0)
fn expr_ops(r: &mut Rng, kind: u8, n: u64) -> Vec<u32> {
    let s = EXPR[kind as usize].1;
    if s == "*" {
        return (0..r.below(5)).map(|_| r.below(n) as u32).collect();
    }
    let mut v: Vec<u32> = s
        .bytes()
        .map(|b| {
            if b == b'?' && r.one_in(2) {
                ABSENT
            } else {
                r.below(n) as u32
            }
        })
        .collect();
    if kind == 6 && v[5] == ABSENT {
        v[6] = ABSENT
    }
    v
}
/// How large a module is made.
#[derive(Clone, Copy)]
struct Most {
    overrides: u64,
    entries: u64,
    constants: u64,
}
const PILES: [&str; 13] = [
    "keep",
    "keep whole",
    "keep find",
    "keep whole find",
    "keep find whole",
    "keep padding",
    "keep padding whole",
    "keep padding find",
    "keep trap",
    "keep whole trap",
    "keep trap whole",
    "keep whole find trap",
    "keep whole trap find",
];
/// A pile of folders. A trap gets a kind that a module may well have, and a code.
fn pile(r: &mut Rng) -> Vec<String> {
    let words = if r.one_in(3) {
        "keep whole"
    } else {
        PILES[r.below(PILES.len() as u64) as usize]
    };
    let kind = [0, 10, 18, 24, 26][r.below(5) as usize];
    let code = [1, 7, 200, 255][r.below(4) as usize];
    let layer = |w: &str| {
        if w == "trap" {
            format!("trap:{kind}:{code}")
        } else {
            w.into()
        }
    };
    words.split(' ').map(layer).collect()
}
fn scalar(r: &mut Rng) -> (u8, u8) {
    if r.one_in(2) {
        TYPES[3 + r.below(2) as usize]
    } else {
        TYPES[r.below(8) as usize]
    }
}
fn an_override(r: &mut Rng, i: u64) -> Over {
    let (kind, width) = scalar(r);
    let id = r.one_in(2).then(|| {
        if r.one_in(15) {
            7
        } else {
            [i, 7 + i, 65535 - i][r.below(3) as usize] as u16
        }
    });
    let name = (id.is_none() || r.one_in(2)).then(|| match r.below(12) {
        0 => b"".to_vec(),
        1 => b"7".to_vec(),
        2 => b"007".to_vec(),
        3 => b"w".to_vec(),
        _ => format!("n{i}").into_bytes(),
    });
    Over {
        id,
        name,
        kind,
        width,
        init: ABSENT,
    }
}
/// Where the module's entries first come to each constant and override: their inits have to lie below.
struct Reached {
    constants: Vec<Option<u64>>,
    overrides: Vec<u64>,
    settled: usize,
}
impl Reached {
    /// The override that an entry names, mostly the next.
    fn name_override(&mut self, r: &mut Rng, h: u64) -> u32 {
        let count = self.overrides.len() as u64;
        let o = if r.one_in(3) {
            r.below(count) as usize
        } else {
            (self.settled as u64 + r.below(2)).min(count - 1) as usize
        };
        while self.settled <= o {
            self.overrides[self.settled] = h;
            self.settled += 1
        }
        o as u32
    }
    fn name_constant(&mut self, r: &mut Rng, h: u64) -> u32 {
        let k = r.below(self.constants.len() as u64) as usize;
        self.constants[k].get_or_insert(h);
        k as u32
    }
}
/// Operands of a Binary that can mostly be worked out.
fn binary_operands(r: &mut Rng, g: &[Entry]) -> Option<Vec<u32>> {
    let any = g.len() as u64;
    if r.below(5) == 0 {
        return Some(vec![r.below(any) as u32, r.below(any) as u32]);
    }
    let fits = |e: &Entry| e.kind == 18 && e.words[0] == 3 || e.kind == 10;
    let good: Vec<u32> = (0..g.len()).filter(|i| fits(&g[*i])).map(|i| i as u32).collect();
    let mut one = || good[r.below(good.len() as u64) as usize];
    (!good.is_empty()).then(|| vec![one(), one()])
}
fn global_entry(r: &mut Rng, g: &[Entry], reached: &mut Reached) -> Entry {
    let h = g.len() as u64;
    let mut e = Entry {
        kind: 18,
        words: junk(r),
        span: sp(r),
        ops: vec![],
    };
    match r.below(24) {
        6 => e.kind = 26,
        7..=10 if !reached.overrides.is_empty() => {
            e.kind = 25;
            e.words[0] = reached.name_override(r, h);
        }
        11..=13 if !reached.constants.is_empty() && h > 0 => {
            e.kind = 24;
            e.words[0] = reached.name_constant(r, h);
        }
        14..=15 => {
            e.kind = 0;
            e.ops = if h == 0 { vec![] } else { expr_ops(r, 0, h) }
        }
        16..=21 if h > 1 => match binary_operands(r, g) {
            Some(ops) => {
                e.kind = 10;
                e.words[0] = r.below(3) as u32;
                e.ops = ops;
            }
            None => e.words = lit(r),
        },
        22 if h > 0 && r.one_in(8) => {
            e.kind = r.below(34) as u8;
            if matches!(e.kind, 24 | 25) {
                e.kind = 26
            }
            e.ops = expr_ops(r, e.kind, h);
            if e.kind == 18 {
                e.words = lit(r)
            }
        }
        _ => e.words = lit(r),
    }
    e
}
fn size_handles(r: &mut Rng, g: &[Entry]) -> [u32; 5] {
    let all = g.len() as u64;
    let fits = |e: &Entry| matches!(e.kind, 18 | 24 | 25 | 10);
    let good: Vec<u32> = (0..g.len()).filter(|i| fits(&g[*i])).map(|i| i as u32).collect();
    let mut one = || {
        if all == 0 || !r.one_in(5) {
            ABSENT
        } else if good.is_empty() || r.one_in(12) {
            r.below(all) as u32
        } else {
            good[r.below(good.len() as u64) as usize]
        }
    };
    [one(), one(), one(), one(), one()]
}
fn handle_or_none(r: &mut Rng, below: u64) -> u32 {
    if below == 0 || r.one_in(3) {
        ABSENT
    } else {
        r.below(below) as u32
    }
}
/// Values for most of the overrides that need one and some that do not; now and then a key that none takes.
fn settings(r: &mut Rng, overrides: &[Over]) -> Vec<(Vec<u8>, u64)> {
    let mut file: Vec<(Vec<u8>, u64)> = Vec::new();
    let has = |file: &[(Vec<u8>, u64)], key: &[u8]| file.iter().any(|(k, _)| k == key);
    for o in overrides {
        let given = if o.init == ABSENT { r.below(12) > 0 } else { r.one_in(2) };
        let key = match o.id {
            Some(i) => i.to_string().into_bytes(),
            None => o.name.clone().unwrap(),
        };
        if given && !has(&file, &key) {
            file.push((key, value(r, o.kind, o.width)));
        }
    }
    if r.one_in(25) {
        let key: &[u8] = [&b"nope"[..], b"65536", b"x\xc3\xa9", b" 7", b"7 ", b"-0", b""][r.below(7) as usize];
        if !has(&file, key) {
            let at = r.below(file.len() as u64 + 1) as usize;
            file.insert(at, (key.to_vec(), r.next()))
        }
    }
    for i in (1..file.len()).rev() {
        let j = r.below(i as u64 + 1) as usize;
        file.swap(i, j)
    }
    file
}
/// A case without a body.
fn module(r: &mut Rng, no: u64, most: Most) -> Case {
    let overrides = if r.one_in(12) { 0 } else { 1 + r.below(most.overrides) };
    let entries = r.below(most.entries + 1);
    let constants = if entries == 0 { 0 } else { r.below(most.constants + 1) };
    let mut c = Case {
        no,
        pile: pile(r),
        size_handles: [ABSENT; 5],
        ..Case::default()
    };
    c.o = (0..overrides).map(|i| an_override(r, i)).collect();
    let mut reached = Reached {
        constants: vec![None; constants as usize],
        overrides: vec![entries; overrides as usize],
        settled: 0,
    };
    for _ in 0..entries {
        let e = global_entry(r, &c.g, &mut reached);
        c.g.push(e);
    }
    for first in &reached.constants {
        c.c.push(r.below(first.unwrap_or(entries)) as u32)
    }
    for (o, first) in c.o.iter_mut().zip(&reached.overrides) {
        if *first > 0 && r.below(6) > 0 {
            o.init = r.below(*first) as u32
        }
    }
    c.v = (0..r.below(3)).map(|_| handle_or_none(r, entries)).collect();
    c.sizes = [1 + r.below(64) as u32, 1, 1, r.below(9) as u32, r.below(9) as u32];
    c.size_handles = size_handles(r, &c.g);
    c.file = settings(r, &c.o);
    c
}
fn start(no: u64, seed: u64) -> Rng {
    Rng(seed ^ no.wrapping_mul(0x9e37_79b9))
}
/// A small module to be settled.
pub fn settling(no: u64, seed: u64) -> Case {
    let most = Most {
        overrides: 4,
        entries: 9,
        constants: 3,
    };
    let r = &mut start(no, seed);
    let mut c = module(r, no, most);
    for o in c.o.iter_mut() {
        let taken = c.file.iter().any(|(k, _)| crate::model::takes(o, k));
        if !taken && r.one_in(10) {
            // no literal has it, which only a value shows
            (o.kind, o.width) = [(0, 8), (1, 8), (3, 4), (2, 1), (1, 255)][r.below(5) as usize]
        }
    }
    c
}
fn body_entry(r: &mut Rng, h: u64, constants: u64, overrides: u64) -> Entry {
    let kind = match r.below(10) {
        0..=2 => [18, 24, 25, 26][r.below(4) as usize],
        3 => 0,
        4..=5 => 10,
        6 => [19, 20, 21][r.below(3) as usize],
        _ => r.below(34) as u8,
    };
    let none_to_name = kind == 24 && constants == 0 || kind == 25 && overrides == 0;
    let kind = if none_to_name { 26 } else { kind };
    let kind = if h == 0 && !EXPR[kind as usize].1.is_empty() {
        18
    } else {
        kind
    };
    let mut e = Entry {
        kind,
        words: junk(r),
        span: sp(r),
        ops: vec![],
    };
    match kind {
        10 => e.words[0] = r.below(4) as u32,
        18 => e.words = lit(r),
        24 => e.words[0] = r.below(constants) as u32,
        25 => e.words[0] = r.below(overrides) as u32,
        _ => {}
    }
    if h > 0 {
        e.ops = expr_ops(r, kind, h)
    }
    e
}
/// A module with a body.
pub fn case(no: u64, seed: u64) -> Case {
    let most = Most {
        overrides: 6,
        entries: 13,
        constants: 3,
    };
    let r = &mut start(no, seed);
    let mut c = module(r, no, most);
    let ne = 1 + r.below(24);
    c.e = (0..ne)
        .map(|h| body_entry(r, h, c.c.len() as u64, c.o.len() as u64))
        .collect();
    block(r, &mut c.r, ne, 0, &mut 30);
    c.l = (0..r.below(3)).map(|_| handle_or_none(r, ne)).collect();
    c.n = (0..r.below(4)).map(|_| r.below(ne) as u32).collect();
    c.n.sort();
    c.n.dedup();
    c
}
fn rec(r: &mut Rng, kind: u8) -> Entry {
    Entry {
        kind,
        words: junk(r),
        span: sp(r),
        ops: vec![],
    }
}
fn block(r: &mut Rng, out: &mut Vec<Entry>, ne: u64, depth: u32, left: &mut i32) {
    let e = rec(r, 23);
    out.push(e);
    for _ in 0..r.below(5) {
        if *left <= 0 {
            break;
        }
        *left -= 1;
        let kind = match r.below(10) {
            0..=3 => 0,
            4..=5 => 1 + r.below(4) as u8,
            _ => r.below(23) as u8,
        };
        if (1..=4).contains(&kind) && depth > 6 {
            continue;
        }
        let mut e = rec(r, kind);
        if kind == 0 {
            let (a, b) = (r.below(ne + 1) as u32, r.below(ne + 1) as u32);
            e.words[0] = a;
            e.words[1] = if a > b && r.below(10) > 0 { ne as u32 } else { b }
        }
        e.ops = STMT[kind as usize]
            .1
            .bytes()
            .filter(|b| *b != b'*')
            .map(|b| {
                if matches!(b, b'?' | b'r') && r.one_in(2) {
                    ABSENT
                } else {
                    r.below(ne) as u32
                }
            })
            .collect();
        if kind == 14 {
            for _ in 0..r.below(4) {
                let x = r.below(ne) as u32;
                e.ops.insert(0, x)
            }
        }
        if kind == 9 && r.below(10) > 0 {
            e.ops[4] = ABSENT
        } // compare is not mapped by the Rust
        if kind == 15 {
            match r.below(4) {
                0 => {
                    e.ops[1] = r.below(ne) as u32;
                    e.ops[2] = r.below(ne) as u32;
                    e.ops[3] = ABSENT;
                    e.ops[4] = ABSENT
                }
                1 => {
                    e.ops[1] = ABSENT;
                    e.ops[2] = ABSENT;
                    e.ops[3] = r.below(ne) as u32;
                    e.ops[4] = ABSENT
                }
                2 => {
                    e.ops[1] = ABSENT;
                    e.ops[2] = ABSENT;
                    e.ops[3] = ABSENT;
                    e.ops[4] = r.below(ne) as u32
                }
                _ => {
                    for i in 1..5 {
                        e.ops[i] = ABSENT
                    }
                }
            }
        }
        let blocks = match kind {
            1 => 1,
            2 | 4 => 2,
            3 => {
                e.words[0] = r.below(4) as u32;
                e.words[0]
            }
            _ => 0,
        };
        out.push(e);
        for _ in 0..blocks {
            block(r, out, ne, depth + 1, left)
        }
    }
    let e = rec(r, 24);
    out.push(e);
}
