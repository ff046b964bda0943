//! The stored list of settlings, and that of settlings in which naga and the rules differ. In both each case stands with an answer: in
//! the first naga's, which is that of the rules too, and in the second that of the rules, with naga's beside it as a comment.
use crate::gen::{self, Rng};
use crate::model::number;
use crate::tables::*;
use crate::{model, run};
use std::collections::{BTreeMap, BTreeSet};

const KIND: &str = "an expression of kind ";
const EDGES: &str = include_str!("../edges.cases");
const HEADER: &str = "\
# Settlings, each with the answer that naga's process_overrides gave, unchanged, compiled with rustc and run.
#
# A case begins with `case` and its number. In small letters stands what is given:
#   pile keep WORD..                                the folders from the bottom; a trap with its kind and its code
#   g KIND W0 W1 W2 W3 / START END / OPERAND..      a global entry: kind, words, span, operands
#   c INIT..                                        the constants
#   o ID NAME KIND WIDTH INIT                       an override: id, name, scalar's kind, scalar's width in bytes, init
#   v INIT..                                        the variable inits
#   z X Y Z VERTICES PRIMITIVES / HANDLE..          the sizes, and a handle for each
#   k KEY DOUBLE                                    a key of the settings, in order, and the bits of its value in hexadecimal
# and then in capitals what came of it:
#   settle ok | settle refused NUMBER VALUE..       the values as docs/RULES.md has them
#   G KIND W0 W1 W2 W3 / START END / OPERAND..      a finished entry
#   GK                                              the kinds of the finished entries, a letter each, C for Const
#   C, O, V                                         the inits of the constants, of the overrides, of the variables
#   Z                                               the sizes
#   H, M                                            the image of each old handle, the constant of each override
# On a refusal these lines have what was written by then, and there is no Z.
# The last line says how many cases there are.
# A `-` is none, or an absent operand. A name or key is ' and its characters, or x and two hexadecimal digits for each byte.
# oracle/README.md says how the list was made, what of naga was run, and what stood in for the rest.
# In none of these cases does naga's answer differ from the rules, or depend on the order of its map of settings.
";
const DIFFERENCES_HEADER: &str = "\
# Settlings in which naga's answer differs from that of the rules. A case reads as in the list of naga's answers, but the answer that
# stands in it is that of the rules; naga's stands before it as a comment. docs/DIFFERENCES.md has the reasons, by these names.
# The settings were put into naga's map in their order, and the stand-in for that map keeps it.
";
/// Of how many cases each thing has to be seen.
const EACH: usize = 25;
const EACH_REFUSAL: usize = 40;
const ACCEPTED: usize = 300;
/// How many of a kind of expression there have to be.
const EACH_KIND: usize = 3;
/// After so many random cases of which none was taken there are no more.
const IN_VAIN: u64 = 200_000;
/// Cases of a difference for each way in which naga ends: more where it panics or accepts.
const OF_EACH_REFUSAL: usize = 1;
const OF_EACH_OTHER: usize = 3;

/// Whether the settings have a key such as 007: naga reads it as the number 7, and by the rules it is a name.
pub fn has_key_parsed_as_id(c: &Case) -> bool {
    let parsed = |k: &[u8]| std::str::from_utf8(k).is_ok_and(|s| s.parse::<u16>().is_ok());
    c.file.iter().any(|(k, _)| parsed(k) && number(k).is_none())
}
fn by_rules(c: &Case) -> Answer {
    model::run(c)
}
/// naga's answer, if it is the same in both orders of its map's keys.
fn by_naga(c: &Case) -> Option<Answer> {
    let (one, other) = (run::run(c, false), run::run(c, true));
    (one == other).then_some(one)
}
fn block(c: &Case, a: &Answer) -> String {
    format!("{}{}end\n", given_text(c), settled_text(a))
}

/// What a case with this answer is a case of.
fn covers(c: &Case, a: &Answer) -> BTreeSet<String> {
    let mut seen = BTreeSet::new();
    let mut see = |holds: bool, what: &str| {
        if holds {
            seen.insert(what.to_string());
        }
    };
    match &a.settle {
        Outcome::Ok => see(true, "accepted"),
        Outcome::Refused(v) => see(true, &format!("refused with {:2}", v[0])),
        _ => {}
    }
    let pile: Vec<&str> = c.pile.iter().map(|w| w.split(':').next().unwrap()).collect();
    see(true, &format!("pile {}", pile.join(" ")));
    covers_overrides(c, a, &mut see);
    covers_constants(c, a, &mut see);
    covers_sizes(c, a, &mut see);
    covers_entries(c, a, &mut see);
    seen
}
/// How often the entries name a constant (kind 24) or an override (kind 25).
fn named(c: &Case, kind: u8, number: usize) -> usize {
    let names = |e: &&Entry| e.kind == kind && e.words[0] as usize == number;
    c.g.iter().filter(names).count()
}
fn covers_overrides(c: &Case, a: &Answer, see: &mut dyn FnMut(bool, &str)) {
    let all = 0..c.o.len();
    let value = |o: &Over| c.file.iter().any(|(k, _)| model::takes(o, k));
    let other = |o: &Over| matches!(model::convert(0, o.kind, o.width), model::Conv::Other);
    see(c.o.is_empty(), "no overrides");
    see(
        all.clone().any(|o| named(c, 25, o) == 0),
        "an override that no entry names",
    );
    see(all.clone().any(|o| named(c, 25, o) == 1), "an override named once");
    see(all.clone().any(|o| named(c, 25, o) > 1), "an override named twice");
    see(names_ahead(c), "an override named before one in front of it");
    if a.settle != Outcome::Ok {
        return;
    }
    see(c.o.iter().any(value), "a value taken");
    see(c.o.iter().any(|o| !value(o)), "an init taken");
    see(c.o.iter().any(|o| other(o)), "another scalar, its init taken");
    see(
        c.o.iter().any(|o| o.id.is_some() && o.name.is_some()),
        "an override with id and name",
    );
    see(
        c.file
            .iter()
            .any(|(k, _)| c.o.iter().filter(|o| model::takes(o, k)).count() > 1),
        "a key that two overrides take",
    );
    for o in c.o.iter().filter(|o| value(o)) {
        see(true, &format!("a value for scalar {} {}", o.kind, o.width))
    }
}
/// Whether an entry names an override while one in front of it is not settled.
fn names_ahead(c: &Case) -> bool {
    let mut settled = 0;
    for e in c.g.iter().filter(|e| e.kind == 25) {
        let o = e.words[0] as usize;
        if o > settled {
            return true;
        }
        settled = settled.max(o + 1)
    }
    false
}
fn covers_constants(c: &Case, a: &Answer, see: &mut dyn FnMut(bool, &str)) {
    let all = 0..c.c.len();
    see(all.clone().any(|k| named(c, 24, k) == 1), "a constant named once");
    see(all.clone().any(|k| named(c, 24, k) > 1), "a constant named twice");
    see(
        all.clone().any(|k| named(c, 24, k) == 0),
        "a constant that no entry names",
    );
    see(c.v.contains(&ABSENT), "a variable without an init");
    see(c.v.iter().any(|v| *v != ABSENT), "a variable with an init");
    see(
        a.settle == Outcome::Ok && all.clone().any(|k| a.c[k] != c.c[k]),
        "a constant with another init than before",
    );
}
/// Through how many constants a size is read.
fn depth(a: &Answer, mut h: u32) -> usize {
    let mut n = 0;
    while a.g[h as usize].kind == 24 {
        h = a.c[a.g[h as usize].words[0] as usize];
        n += 1
    }
    n
}
fn covers_sizes(c: &Case, a: &Answer, see: &mut dyn FnMut(bool, &str)) {
    let handles: Vec<usize> = (0..5).filter(|i| c.size_handles[*i] != ABSENT).collect();
    see(handles.is_empty(), "no size with a handle");
    if a.settle != Outcome::Ok || c.o.is_empty() {
        see(
            c.o.is_empty() && !handles.is_empty(),
            "sizes with handles and no overrides",
        );
        return;
    }
    for i in handles {
        see(
            true,
            &format!("size {} set", ["x", "y", "z", "vertices", "primitives"][i]),
        );
        let n = depth(a, a.h[c.size_handles[i] as usize]);
        see(n == 0, "a size that is a literal");
        see(n == 1, "a size through a constant");
        see(n > 1, "a size through two constants or more");
    }
}
fn covers_entries(c: &Case, a: &Answer, see: &mut dyn FnMut(bool, &str)) {
    for e in &c.g {
        see(!c.o.is_empty(), &format!("{KIND}{}", e.kind))
    }
    see(
        matches!(&a.settle, Outcome::Refused(v) if v[0] > 6) && !a.g.is_empty(),
        "refused after something was written",
    );
    see(
        matches!(&a.settle, Outcome::Refused(v) if v[0] == 13 && v[2] > 0),
        "refused with a fault",
    );
    see(
        matches!(&a.settle, Outcome::Refused(v) if v[0] == 13 && v[2] == 0),
        "refused because a folder declined",
    );
    if a.settle != Outcome::Ok || c.o.is_empty() {
        return;
    }
    let images = |kind: u8| {
        (0..c.g.len())
            .filter(move |i| c.g[*i].kind == kind)
            .map(|i| a.h[i] as usize)
    };
    see(images(10).any(|h| a.g[h].kind == 18), "a Binary worked out");
    see(images(0).any(|h| a.g[h].kind == 0), "a Compose");
    see(images(24).any(|h| a.g[h].kind == 18), "a constant answered by its init");
    see(
        a.h.windows(2).any(|w| w[1] <= w[0]),
        "an entry answered by an earlier one",
    );
}

/// Cases with a comment before some.
fn edges() -> Vec<(Option<String>, Case)> {
    let mut title = None;
    let mut text = String::new();
    let mut all = vec![];
    for line in EDGES.lines() {
        if line.starts_with('#') {
            title = Some(line.to_string());
            continue;
        }
        text += line;
        text.push('\n');
        if line == "end" {
            let case = parse_cases(&std::mem::take(&mut text)).remove(0);
            all.push((title.take(), case))
        }
    }
    all
}
#[derive(Default)]
struct List {
    text: String,
    count: usize,
    known: BTreeSet<String>,
    seen: BTreeMap<String, usize>,
}
impl List {
    /// Adds a case whose answer is naga's and the rules'.
    fn add(&mut self, title: Option<String>, mut c: Case, a: &Answer) {
        c.no = self.count as u64;
        self.count += 1;
        for what in covers(&c, a) {
            *self.seen.entry(what).or_default() += 1
        }
        if let Some(title) = title {
            self.text += &title;
            self.text.push('\n')
        }
        self.text += &block(&c, a)
    }
    fn is_new(&mut self, c: &Case) -> bool {
        let same_number = Case { no: 0, ..c.clone() };
        self.known.insert(case_text(&same_number))
    }
    /// Whether a case is one of something that there is not enough of yet.
    fn wants(&self, c: &Case, a: &Answer) -> bool {
        let enough = |what: &str| match what {
            "accepted" => ACCEPTED,
            _ if what.starts_with("refused with  ") || what.starts_with("refused with 1") => EACH_REFUSAL,
            _ if what.starts_with(KIND) => EACH_KIND,
            _ => EACH,
        };
        covers(c, a)
            .iter()
            .any(|what| self.seen.get(what).copied().unwrap_or(0) < enough(what))
    }
    /// Takes a random case if it is wanted.
    fn offer(&mut self, c: &Case) -> bool {
        let Some(a) = by_naga(c) else { return false };
        hold(c, &a);
        let taken = self.wants(c, &a) && self.is_new(c);
        if taken {
            self.add(None, c.clone(), &a)
        }
        taken
    }
    fn coverage(&self, comment: &str) -> String {
        let mut s = format!("{comment}{} cases, of which\n", self.count);
        for (what, n) in self.seen.iter().filter(|(what, _)| !what.starts_with(KIND)) {
            s += &format!("{comment}  {n:4}  {what}\n")
        }
        let kinds = self.seen.keys().filter(|what| what.starts_with(KIND)).count();
        s + &format!("{comment}The entries have {kinds} of the 34 kinds of expression.\n")
    }
}
fn stop(why: &str, c: &Case) -> ! {
    eprintln!("{why}\n{}", case_text(c));
    std::process::exit(1)
}
/// Stops where naga's answer is not that of the rules.
fn hold(c: &Case, naga: &Answer) {
    let rules = by_rules(c);
    if let Some(line) = naga.differs_settled(&rules) {
        eprintln!("{line}\n{}{}", answer_text(naga), answer_text(&rules));
        stop("naga and the rules differ, and it is not known why", c)
    }
}
/// Prints the list: cases written by hand, then random ones until each thing has been seen often enough. A case in which naga and the
/// rules differ, or naga's answer depends on the order of its map, is not one for this list; if it is not known why, this stops.
pub fn list(seed: u64) {
    let mut list = List::default();
    for (title, c) in edges() {
        let Some(a) = by_naga(&c) else {
            stop("naga's answer depends on the order of the settings", &c)
        };
        hold(&c, &a);
        list.is_new(&c);
        list.add(title, c, &a)
    }
    list.text += "# random cases\n";
    let (mut i, mut last) = (0, 0);
    while i - last < IN_VAIN {
        let c = gen::settling(i, seed);
        if !has_key_parsed_as_id(&c) && list.offer(&c) {
            last = i
        }
        i += 1
    }
    print!(
        "{HEADER}#\n{}#\n{}cases {}\n",
        list.coverage("# "),
        list.text,
        list.count
    );
    eprint!("{}", list.coverage(""))
}

/// A known difference: its name, how a case is made that may show it, and whether an answer of naga's and one of the rules' do.
struct Difference {
    name: &'static str,
    change: fn(&mut Rng, &mut Case) -> Option<()>,
    shows: fn(&Outcome, &Outcome) -> bool,
}
fn refused(o: &Outcome, code: u32) -> bool {
    matches!(o, Outcome::Refused(v) if v[0] == code)
}
fn panics(o: &Outcome) -> bool {
    matches!(o, Outcome::Panic(_))
}
const DIFFERENCES: [Difference; 9] = [
    Difference {
        name: "keys that only parse as an id",
        change: with_parsed_key,
        shows: |naga, rules| refused(rules, 6) && !refused(naga, 6),
    },
    Difference {
        name: "a good file refused",
        change: with_two_keys_of_one_number,
        shows: |naga, rules| refused(naga, 6) && !refused(rules, 6),
    },
    Difference {
        name: "which key is not found",
        change: with_parsed_key,
        shows: |naga, rules| refused(naga, 6) && refused(rules, 6),
    },
    Difference {
        name: "neither id nor name",
        change: without_id_and_name,
        shows: |_, rules| refused(rules, 7),
    },
    Difference {
        name: "a value for another scalar",
        change: with_another_scalar,
        shows: |naga, rules| panics(naga) && refused(rules, 11),
    },
    Difference {
        name: "an init without an image",
        change: with_later_init,
        shows: |naga, rules| panics(naga) && refused(rules, 12),
    },
    Difference {
        name: "a constant's init not below its entry",
        change: with_later_constant,
        shows: |_, rules| refused(rules, 4),
    },
    Difference {
        name: "a constant that settling makes",
        change: with_made_constant,
        shows: |_, rules| refused(rules, 4),
    },
    Difference {
        name: "an override that is not there",
        change: with_missing_override,
        shows: |_, rules| refused(rules, 4),
    },
];
fn one_of(r: &mut Rng, all: Vec<usize>) -> Option<usize> {
    (!all.is_empty()).then(|| all[r.below(all.len() as u64) as usize])
}
/// The number of a key that an override with an id takes.
fn taken_number(r: &mut Rng, c: &Case) -> Option<(usize, u16)> {
    let by_id = |k: &[u8]| number(k).filter(|n| c.o.iter().any(|o| o.id == Some(*n)));
    let all = (0..c.file.len()).filter(|i| by_id(&c.file[*i].0).is_some()).collect();
    let i = one_of(r, all)?;
    Some((i, by_id(&c.file[i].0)?))
}
fn odd_key(r: &mut Rng, n: u16) -> Vec<u8> {
    [format!("00{n}"), format!("+{n}"), format!("0{n}")][r.below(3) as usize]
        .clone()
        .into_bytes()
}
fn with_parsed_key(r: &mut Rng, c: &mut Case) -> Option<()> {
    let (i, n) = taken_number(r, c)?;
    let key = odd_key(r, n);
    if c.o.iter().any(|o| o.name.as_ref() == Some(&key)) {
        return None;
    }
    if r.one_in(2) {
        c.file[i].0 = key
    } else {
        let v = c.file[i].1;
        c.file.insert(r.below(c.file.len() as u64 + 1) as usize, (key, v))
    }
    Some(())
}
fn with_two_keys_of_one_number(r: &mut Rng, c: &mut Case) -> Option<()> {
    let (i, n) = taken_number(r, c)?;
    let key = odd_key(r, n);
    let o = one_of(
        r,
        (0..c.o.len())
            .filter(|o| c.o[*o].id.is_none() && !c.file.iter().any(|(k, _)| model::takes(&c.o[*o], k)))
            .collect(),
    )?;
    c.o[o].name = Some(key.clone());
    let v = c.file[i].1;
    c.file.insert(r.below(c.file.len() as u64 + 1) as usize, (key, v));
    Some(())
}
fn without_id_and_name(r: &mut Rng, c: &mut Case) -> Option<()> {
    let taken = |o: &Over| c.file.iter().any(|(k, _)| model::takes(o, k));
    let o = one_of(r, (0..c.o.len()).filter(|o| !taken(&c.o[*o])).collect())?;
    c.o[o].id = None;
    c.o[o].name = None;
    Some(())
}
fn with_another_scalar(r: &mut Rng, c: &mut Case) -> Option<()> {
    let taken = |o: &Over| c.file.iter().any(|(k, _)| model::takes(o, k));
    let o = one_of(r, (0..c.o.len()).filter(|o| taken(&c.o[*o])).collect())?;
    (c.o[o].kind, c.o[o].width) = [(0, 8), (1, 8), (3, 4), (2, 1), (2, 16), (3, 0)][r.below(6) as usize];
    Some(())
}
fn with_later_init(r: &mut Rng, c: &mut Case) -> Option<()> {
    let taken = |o: &Over| c.file.iter().any(|(k, _)| model::takes(o, k));
    let o = one_of(
        r,
        (0..c.o.len())
            .filter(|o| !taken(&c.o[*o]) && named(c, 25, *o) > 0)
            .collect(),
    )?;
    c.o[o].init = r.below(c.g.len() as u64) as u32;
    Some(())
}
fn with_later_constant(r: &mut Rng, c: &mut Case) -> Option<()> {
    let k = one_of(r, (0..c.c.len()).filter(|k| named(c, 24, *k) > 0).collect())?;
    c.c[k] = r.below(c.g.len() as u64) as u32;
    Some(())
}
fn with_made_constant(r: &mut Rng, c: &mut Case) -> Option<()> {
    let h = one_of(r, (0..c.g.len()).filter(|h| c.g[*h].kind == 24).collect())?;
    c.g[h].words[0] = (c.c.len() as u64 + r.below(c.o.len() as u64 + 1)) as u32;
    Some(())
}
fn with_missing_override(r: &mut Rng, c: &mut Case) -> Option<()> {
    let h = one_of(r, (0..c.g.len()).filter(|h| c.g[*h].kind == 25).collect())?;
    c.g[h].words[0] = c.o.len() as u32;
    Some(())
}
/// naga's answer as comments.
fn beside(a: &Answer) -> String {
    let lines: String = settled_text(a).lines().map(|l| format!("#   {l}\n")).collect();
    format!("# naga:\n{lines}")
}
/// How naga ended, by which the cases of a difference are told apart.
fn ending(o: &Outcome) -> String {
    match o {
        Outcome::Panic(p) => p.split(' ').next().unwrap().to_string(),
        Outcome::Refused(v) => v[0].to_string(),
        _ => String::new(),
    }
}
/// Random cases that show a difference: the shortest few for each way in which naga ends.
fn examples(d: &Difference, seed: u64) -> Vec<(Case, Answer, Answer)> {
    let mut found = BTreeMap::<String, Vec<(usize, u64, Case, Answer, Answer)>>::new();
    for i in 0..IN_VAIN {
        let mut c = gen::settling(i, seed);
        if has_key_parsed_as_id(&c) || (d.change)(&mut Rng(seed ^ i), &mut c).is_none() {
            continue;
        }
        let (naga, rules) = (run::run(&c, false), by_rules(&c));
        if naga.differs_settled(&rules).is_some() && (d.shows)(&naga.settle, &rules.settle) {
            let all = found.entry(ending(&naga.settle)).or_default();
            all.push((case_text(&c).len(), i, c, naga.clone(), rules));
            all.sort_by_key(|(len, i, ..)| (*len, *i));
            all.truncate(match naga.settle {
                Outcome::Refused(_) => OF_EACH_REFUSAL,
                _ => OF_EACH_OTHER,
            })
        }
    }
    found
        .into_values()
        .flatten()
        .map(|(_, _, c, naga, rules)| (c, naga, rules))
        .collect()
}
/// Prints the list of differences.
pub fn differences(seed: u64) {
    let mut text = String::new();
    let mut count = 0;
    for d in &DIFFERENCES {
        text += &format!("#\n# {}\n", d.name);
        let all = examples(d, seed);
        eprintln!("{:4}  {}", all.len(), d.name);
        for (mut c, naga, rules) in all {
            c.no = count;
            count += 1;
            text += &beside(&naga);
            text += &block(&c, &rules)
        }
    }
    print!("{DIFFERENCES_HEADER}{text}cases {count}\n")
}
