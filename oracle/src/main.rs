//! The harness's commands; the README says what each is for.
use naga_oracle::{gen, list, model, probe, run, slots, tables::*, values};
use std::collections::BTreeMap;
use std::panic::{catch_unwind, AssertUnwindSafe};

const HELP: &str = "gen SEED N [FIRST]   cases
run FILE             naga's answers to the cases of a file
reverse FILE         the same with the settings put into the map in the other order
model FILE           the rules' answers
both FILE            the two, one after the other
diff SEED N          counts cases by outcome, and shows those in which naga and the rules differ
list SEED            the stored list of settlings; what it covers goes to standard error
differences SEED     the list of settlings in which naga and the rules differ
time FILE ROUNDS     how long naga settles the cases of a file, so many times
values SEED N        conversions, naga's beside the rules'
slots                the order in which naga looks up operands
probe                what answers to cases do not show";

fn number(i: usize, default: u64) -> u64 {
    std::env::args().nth(i).map_or(default, |s| s.parse().unwrap())
}
fn cases() -> Vec<Case> {
    let path = std::env::args().nth(2).expect("a file of cases");
    parse_cases(&std::fs::read_to_string(path).unwrap())
}
/// What the rules answer; nothing where a case is outside of what is written down of them.
fn by_rules(c: &Case) -> Option<Answer> {
    catch_unwind(AssertUnwindSafe(|| model::run(c))).ok()
}
fn both(c: &Case) {
    let naga = run::run(c, false);
    println!("--- case {}: naga\n{}", c.no, answer_text(&naga).trim_end());
    match by_rules(c) {
        Some(rules) => println!(
            "--- case {}: the rules\n{}=== {:?}",
            c.no,
            answer_text(&rules),
            naga.differs(&rules)
        ),
        None => println!("--- case {}: the rules refuse it earlier", c.no),
    }
}
fn tag(o: &Outcome) -> String {
    match o {
        Outcome::Ok => "ok".into(),
        Outcome::Refused(v) => format!("{}", v[0]),
        Outcome::Panic(_) => "panic".into(),
        Outcome::NotRun => "-".into(),
    }
}
fn diff(seed: u64, count: u64) {
    let mut seen = BTreeMap::<String, u64>::new();
    let mut shown = 0;
    for i in 0..count {
        let c = gen::case(i, seed);
        let back = parse_cases(&case_text(&c));
        assert!(back.len() == 1 && back[0] == c, "the text form of case {i}");
        let (naga, rules) = (run::run(&c, false), model::run(&c));
        let outcome = format!(
            "settled: {}, specialised: {}, the handle table rises: {}",
            tag(&naga.settle),
            tag(&naga.body),
            naga.rises()
        );
        *seen.entry(outcome).or_default() += 1;
        let Some(d) = naga.differs(&rules) else { continue };
        if list::has_key_parsed_as_id(&c) {
            *seen.entry("different: a key such as 007".into()).or_default() += 1;
            continue;
        }
        *seen.entry("DIFFERENT, not known why".into()).or_default() += 1;
        shown += 1;
        if shown <= 3 {
            println!(
                "case {i}: {d}\n{}{}{}",
                case_text(&c),
                answer_text(&naga),
                answer_text(&rules)
            )
        }
    }
    for (k, n) in &seen {
        println!("{n:8} {k}")
    }
}
fn main() {
    run::quiet_panics();
    match std::env::args().nth(1).as_deref() {
        Some("gen") => {
            (0..number(3, 1000)).for_each(|i| print!("{}", case_text(&gen::case(number(4, 0) + i, number(2, 1)))))
        }
        Some("run") => cases()
            .iter()
            .for_each(|c| print!("{}", answer_text(&run::run(c, false)))),
        Some("reverse") => cases()
            .iter()
            .for_each(|c| print!("{}", answer_text(&run::run(c, true)))),
        Some("model") => cases().iter().for_each(|c| print!("{}", answer_text(&model::run(c)))),
        Some("both") => cases().iter().for_each(both),
        Some("diff") => diff(number(2, 1), number(3, 100000)),
        Some("list") => list::list(number(2, 1)),
        Some("differences") => list::differences(number(2, 1)),
        Some("values") => values::values(number(2, 1), number(3, 1000000)),
        Some("time") => {
            let rounds = number(3, 1) as u32;
            let total: std::time::Duration = cases().iter().map(|c| run::time(c, rounds)).sum();
            println!("{rounds} rounds: {total:?}")
        }
        Some("slots") => slots::slots(),
        Some("probe") => probe::run(),
        _ => eprintln!("{HELP}"),
    }
}
