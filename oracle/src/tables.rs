//! The tables, and the text form of a case and of an answer.
use std::fmt::Write;
pub const ABSENT: u32 = u32::MAX;

#[derive(Clone, Debug, PartialEq)]
pub struct Entry {
    pub kind: u8,
    pub words: [u32; 4],
    pub span: (u32, u32),
    pub ops: Vec<u32>,
}
#[derive(Clone, Debug, PartialEq)]
pub struct Over {
    pub id: Option<u16>,
    pub name: Option<Vec<u8>>,
    pub kind: u8,
    pub width: u8,
    pub init: u32,
}
#[derive(Clone, Debug, Default, PartialEq)]
pub struct Case {
    pub no: u64,
    pub pile: Vec<String>,
    pub g: Vec<Entry>,
    pub c: Vec<u32>,
    pub o: Vec<Over>,
    pub v: Vec<u32>,
    pub sizes: [u32; 5],
    pub size_handles: [u32; 5],
    pub file: Vec<(Vec<u8>, u64)>,
    pub e: Vec<Entry>,
    pub r: Vec<Entry>,
    pub l: Vec<u32>,
    pub n: Vec<u32>,
}
#[derive(Clone, Debug, PartialEq)]
pub enum Outcome {
    Ok,
    Refused(Vec<u32>),
    Panic(String),
    NotRun,
}
#[derive(Clone, Debug, PartialEq)]
pub struct Answer {
    pub no: u64,
    pub settle: Outcome,
    pub g: Vec<Entry>,
    pub gk: Vec<u8>,
    pub c: Vec<u32>,
    pub o: Vec<u32>,
    pub v: Vec<u32>,
    pub sizes: [u32; 5],
    pub h: Vec<u32>,
    pub m: Vec<u32>,
    pub body: Outcome,
    pub e: Vec<Entry>,
    pub ek: Vec<u8>,
    pub r: Vec<Entry>,
    pub l: Vec<u32>,
    pub n: Vec<u32>,
    pub t: Vec<u32>,
    pub struck: u32,
    pub emitted: u32,
}
impl Answer {
    pub fn empty(no: u64) -> Answer {
        Answer {
            no,
            settle: Outcome::NotRun,
            g: vec![],
            gk: vec![],
            c: vec![],
            o: vec![],
            v: vec![],
            sizes: [0; 5],
            h: vec![],
            m: vec![],
            body: Outcome::NotRun,
            e: vec![],
            ek: vec![],
            r: vec![],
            l: vec![],
            n: vec![],
            t: vec![],
            struck: 0,
            emitted: 0,
        }
    }
    pub fn rises(&self) -> bool {
        self.t.windows(2).all(|w| w[0] < w[1])
    }
    /// Where naga's answer differs from that of the rules, apart from two points that are known of bodies: the compare of an ImageAtomic,
    /// which naga does not map, and Emits where the handle table does not rise.
    pub fn differs(&self, rules: &Answer) -> Option<&'static str> {
        self.differs_settled(rules).or_else(|| self.differs_body(rules))
    }
    /// The same of settling alone.
    pub fn differs_settled(&self, rules: &Answer) -> Option<&'static str> {
        let same = [
            (self.settle == rules.settle, "settle"),
            (self.g == rules.g, "G"),
            (self.gk == rules.gk, "GK"),
            (self.c == rules.c, "C"),
            (self.o == rules.o, "O"),
            (self.v == rules.v, "V"),
            (self.h == rules.h, "H"),
            (self.m == rules.m, "M"),
            (self.settle != Outcome::Ok || self.sizes == rules.sizes, "Z"),
        ];
        same.iter().find(|(same, _)| !same).map(|(_, line)| *line)
    }
    fn differs_body(&self, rules: &Answer) -> Option<&'static str> {
        if self.body != rules.body {
            return Some("body");
        }
        if (&self.e, &self.ek) != (&rules.e, &rules.ek) {
            return Some("E EK");
        }
        if self.body != Outcome::Ok {
            return None;
        }
        let rises = self.rises();
        let same = [
            ((&self.l, &self.t) == (&rules.l, &rules.t), "L T"),
            (!rises || self.n == rules.n, "N"),
            (
                !rises || (self.struck, self.emitted) == (rules.struck, rules.emitted),
                "Q",
            ),
            (
                self.known_records(rules, rises) == rules.known_records(rules, rises),
                "R",
            ),
        ];
        same.iter().find(|(same, _)| !same).map(|(_, line)| *line)
    }
    /// The records without what is known to differ.
    fn known_records(&self, rules: &Answer, rises: bool) -> Vec<Entry> {
        let kept = |a: &Answer| a.r.iter().filter(|r| rises || r.kind != 0).cloned().collect::<Vec<_>>();
        let mut records = kept(self);
        for (x, y) in records.iter_mut().zip(kept(rules)) {
            if x.kind == 9 && y.kind == 9 {
                x.ops[4] = y.ops[4]
            }
        }
        records
    }
}

fn hd(h: u32) -> String {
    if h == ABSENT {
        "-".into()
    } else {
        h.to_string()
    }
}
fn uh(s: &str) -> u32 {
    if s == "-" {
        ABSENT
    } else {
        s.parse().unwrap()
    }
}
/// A key or a name: `'` and its bytes where they are printed characters but for `#`, else `x` and two hexadecimal digits for each.
fn name_word(b: &[u8]) -> String {
    if b.iter().all(|x| x.is_ascii_graphic() && *x != b'#') {
        return format!("'{}", std::str::from_utf8(b).unwrap());
    }
    let digits: String = b.iter().map(|x| format!("{x:02x}")).collect();
    format!("x{digits}")
}
fn name_bytes(s: &str) -> Vec<u8> {
    if let Some(plain) = s.strip_prefix('\'') {
        return plain.as_bytes().to_vec();
    }
    let digits = s.strip_prefix('x').expect("a name begins with ' or x");
    (0..digits.len() / 2)
        .map(|i| u8::from_str_radix(&digits[2 * i..2 * i + 2], 16).unwrap())
        .collect()
}
/// A double: its bits in 16 hexadecimal digits, or in a case written by hand `=` and a decimal number.
fn double_bits(s: &str) -> u64 {
    match s.strip_prefix('=') {
        Some(decimal) => decimal.parse::<f64>().unwrap().to_bits(),
        None => u64::from_str_radix(s, 16).unwrap(),
    }
}
fn entry_line(tag: &str, e: &Entry) -> String {
    let mut s = format!(
        "{tag} {} {} {} {} {} / {} {} /",
        e.kind, e.words[0], e.words[1], e.words[2], e.words[3], e.span.0, e.span.1
    );
    for o in &e.ops {
        write!(s, " {}", hd(*o)).unwrap();
    }
    s
}
fn parse_entry(f: &[&str]) -> Entry {
    let w = |i: usize| f[i].parse::<u32>().unwrap();
    assert!(f[5] == "/" && f[8] == "/");
    Entry {
        kind: f[0].parse().unwrap(),
        words: [w(1), w(2), w(3), w(4)],
        span: (w(6), w(7)),
        ops: f[9..].iter().map(|s| uh(s)).collect(),
    }
}
fn entry_lines(s: &mut String, tag: &str, entries: &[Entry]) {
    for e in entries {
        *s += &entry_line(tag, e);
        s.push('\n')
    }
}
/// A line of handles or numbers; none has a line without any.
fn list_line(tag: &str, v: &[u32]) -> String {
    let words: String = v.iter().map(|x| format!(" {}", hd(*x))).collect();
    format!("{tag}{words}\n")
}
fn list_line_if_any(s: &mut String, tag: &str, v: &[u32]) {
    if !v.is_empty() {
        *s += &list_line(tag, v)
    }
}
fn override_line(o: &Over) -> String {
    let id = o.id.map_or("-".into(), |i| i.to_string());
    let name = o.name.as_ref().map_or("-".into(), |n| name_word(n));
    format!("o {id} {name} {} {} {}\n", o.kind, o.width, hd(o.init))
}
/// What is given: module, sizes and settings; then the body, if there is one.
pub fn given_text(c: &Case) -> String {
    let mut s = format!("case {}\npile {}\n", c.no, c.pile.join(" "));
    entry_lines(&mut s, "g", &c.g);
    list_line_if_any(&mut s, "c", &c.c);
    for o in &c.o {
        s += &override_line(o)
    }
    list_line_if_any(&mut s, "v", &c.v);
    let sizes = c.sizes.map(|x| x.to_string()).join(" ");
    writeln!(s, "z {sizes} / {}", c.size_handles.map(hd).join(" ")).unwrap();
    for (k, v) in &c.file {
        writeln!(s, "k {} {v:016x}", name_word(k)).unwrap()
    }
    entry_lines(&mut s, "e", &c.e);
    entry_lines(&mut s, "r", &c.r);
    list_line_if_any(&mut s, "l", &c.l);
    list_line_if_any(&mut s, "n", &c.n);
    s
}
pub fn case_text(c: &Case) -> String {
    given_text(c) + "end\n"
}
pub fn parse_cases(text: &str) -> Vec<Case> {
    let mut out = Vec::new();
    let mut c = Case::default();
    for line in text.lines() {
        let line = line.split('#').next().unwrap();
        let f: Vec<&str> = line.split_whitespace().collect();
        if f.is_empty() {
            continue;
        }
        match f[0] {
            "case" => {
                c = Case {
                    no: f[1].parse().unwrap(),
                    size_handles: [ABSENT; 5],
                    sizes: [1, 1, 1, 0, 0],
                    pile: vec!["keep".into()],
                    ..Case::default()
                }
            }
            "pile" => c.pile = f[1..].iter().map(|s| s.to_string()).collect(),
            "g" => c.g.push(parse_entry(&f[1..])),
            "e" => c.e.push(parse_entry(&f[1..])),
            "r" => c.r.push(parse_entry(&f[1..])),
            "c" => c.c.extend(f[1..].iter().map(|s| uh(s))),
            "v" => c.v.extend(f[1..].iter().map(|s| uh(s))),
            "l" => c.l.extend(f[1..].iter().map(|s| uh(s))),
            "n" => c.n.extend(f[1..].iter().map(|s| uh(s))),
            "o" => c.o.push(Over {
                id: if f[1] == "-" { None } else { Some(f[1].parse().unwrap()) },
                name: if f[2] == "-" { None } else { Some(name_bytes(f[2])) },
                kind: f[3].parse().unwrap(),
                width: f[4].parse().unwrap(),
                init: uh(f[5]),
            }),
            "z" => {
                for i in 0..5 {
                    c.sizes[i] = f[1 + i].parse().unwrap();
                    c.size_handles[i] = uh(f[7 + i])
                }
            }
            "k" => c.file.push((name_bytes(f[1]), double_bits(f[2]))),
            // the last line of a list; what stands in capitals is an answer
            "cases" | "settle" | "G" | "GK" | "C" | "O" | "V" | "Z" | "H" | "M" => {}
            "end" => out.push(std::mem::take(&mut c)),
            x => panic!("line kind {x}"),
        }
    }
    out
}
fn outcome(o: &Outcome) -> String {
    match o {
        Outcome::Ok => "ok".into(),
        Outcome::NotRun => "notrun".into(),
        Outcome::Panic(p) => format!("panic {p}"),
        Outcome::Refused(v) => format!(
            "refused {}",
            v.iter().map(|x| x.to_string()).collect::<Vec<_>>().join(" ")
        ),
    }
}
fn kinds_line(tag: &str, kinds: &[u8]) -> String {
    let letters: String = kinds.iter().map(|k| if *k == 0 { 'C' } else { 'R' }).collect();
    format!("{tag} {letters}").trim_end().to_string() + "\n"
}
/// What settling gave: the finished tables, or on a refusal what was written of them.
pub fn settled_text(a: &Answer) -> String {
    let mut s = format!("settle {}\n", outcome(&a.settle));
    entry_lines(&mut s, "G", &a.g);
    s += &kinds_line("GK", &a.gk);
    s += &list_line("C", &a.c);
    s += &list_line("O", &a.o);
    s += &list_line("V", &a.v);
    if a.settle == Outcome::Ok {
        let sizes = a.sizes.map(|x| x.to_string()).join(" ");
        writeln!(s, "Z {sizes}").unwrap()
    }
    s += &list_line("H", &a.h);
    s += &list_line("M", &a.m);
    s
}
fn body_text(a: &Answer) -> String {
    let mut s = format!("body {}\n", outcome(&a.body));
    entry_lines(&mut s, "E", &a.e);
    s += &kinds_line("EK", &a.ek);
    if a.body == Outcome::Ok {
        entry_lines(&mut s, "R", &a.r);
        s += &list_line("L", &a.l);
        s += &list_line("N", &a.n);
        s += &list_line("T", &a.t);
        s += &format!("Q {} {}\nrises {}\n", a.struck, a.emitted, a.rises());
    }
    s
}
pub fn answer_text(a: &Answer) -> String {
    let body = if a.body == Outcome::NotRun {
        String::new()
    } else {
        body_text(a)
    };
    format!("case {}\n{}{body}end\n", a.no, settled_text(a))
}
