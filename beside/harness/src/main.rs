//! Our laws beside the Rust: every public call, bit for bit with build 2; nalgebra's own operations and build 1 by distance.
mod branches;
#[path = "../../calls.rs"]
mod calls;
mod draw;
mod elementary;
mod examples;
mod far;
mod inside;
#[path = "../../flags.rs"]
mod flags;
#[path = "../../library.rs"]
mod library;
mod listed;
mod lists;
#[path = "../../marked.rs"]
mod marked;
mod ours;
mod principal;
mod replay;
mod show;
mod sites;
mod untouched;
mod vectors;

use calls::CALLS;
use draw::Draw;
use inside::Answer;
use show::{not_zero, progress, short, shown, simpler};
use std::collections::BTreeMap;
use untouched::Untouched;

struct Arguments {
    work: String,
    docs: String,
    seed: u64,
    count: u64,
    replay: Option<String>,
    page: bool,
}

fn arguments() -> Arguments {
    let mut a = Arguments { work: String::new(), docs: String::new(), seed: 1, count: 20_000, replay: None, page: false };
    let mut rest = std::env::args().skip(1);
    a.work = rest.next().unwrap_or_default();
    while let Some(x) = rest.next() {
        let v = rest.next().unwrap_or_default();
        match x.as_str() {
            "--seed" => a.seed = v.parse().unwrap_or(1),
            "--count" => a.count = v.parse().unwrap_or(20_000),
            "--replay" => a.replay = Some(v),
            "--docs" => a.docs = v,
            "--page" => a.page = v == "yes",
            _ => {}
        }
    }
    a
}

/// The part of a stress's size within which a limit is too near to tell a verdict: our principal values are checked to a 2^-40th.
const NEAR: f64 = 1.0 / (1u64 << 36) as f64;

/// What was seen of one call.
#[derive(Default)]
struct Tally {
    missing: bool,
    run: u64,
    same: u64,
    status: BTreeMap<u8, u64>,
    listed: BTreeMap<&'static str, u64>,
    unlisted: u64,
    smallest: Option<(Vec<u64>, Answer, Answer)>,
}

/// Whether ours is what was to come of inputs i, which were run in build 2 last. A verdict is compared where no limit is too near.
fn same(n: usize, i: &[u64], a: &Answer, e: &Answer) -> bool {
    let nan = |x: u64| f64::from_bits(x).is_nan();
    if calls::is_judged(n) && a.status == 0 && e.status == 0 {
        let verdict = a.out[9] == e.out[9] || (a.out[9] < 2 && inside::near_a_limit(n, i, NEAR));
        return a.out[..9] == e.out[..9] && verdict;
    }
    a.status == e.status
        && (a.status != 0 || a.out.iter().zip(&e.out).all(|(x, y)| x == y || (n == calls::SNOW_CLAMP && nan(*x) && nan(*y))))
}

/// Simpler inputs that still differ and are not listed.
fn shrink(n: usize, i: &[u64]) -> Vec<u64> {
    let differs = |w: &[u64]| {
        let (e, a) = (inside::expected(n, w), ours::call(n, w));
        !same(n, w, &a, &e) && listed::by_document(n, w, &e).is_none_or(|d| !same(n, w, &a, &d)) && !listed::not_accepted(n, &a, &e)
    };
    simpler(i, differs)
}

struct Run {
    tallies: Vec<Tally>,
    branches: BTreeMap<(usize, &'static str), u64>,
    instead: BTreeMap<(usize, u8), BTreeMap<&'static str, u64>>,
    /// For each of them an input at which the Rust went on with finite numbers.
    went_on: BTreeMap<(usize, u8), Vec<u64>>,
    sites: sites::Sites,
}

fn compare(a: &Arguments, u: Option<&Untouched>) -> Run {
    let mut r = Run {
        tallies: Vec::new(),
        branches: BTreeMap::new(),
        instead: BTreeMap::new(),
        went_on: BTreeMap::new(),
        sites: BTreeMap::new(),
    };
    let mut names = Vec::new();
    for n in 0..CALLS.len() {
        if calls::is_retired(n) {
            r.tallies.push(Tally::default());
            continue;
        }
        let mut t = Tally { missing: !ours::has(n), ..Tally::default() };
        if t.missing && calls::is_elementary(n) {
            r.tallies.push(t);
            continue;
        }
        let mut d = Draw(a.seed.wrapping_mul(0x1000).wrapping_add(n as u64));
        let mut swept = d.sweep(n);
        for k in 0..swept.len() as u64 + a.count {
            if k % 1000 == 0 {
                progress(&format!("{} of {}: {} {k}", n + 1, CALLS.len(), CALLS[n].name));
            }
            let i = swept.pop().unwrap_or_else(|| d.inputs(n));
            // Without ours, what was to come is still worked out, so that its branches show.
            let got = if t.missing { inside::expected(n, &i) } else { ours::call(n, &i) };
            t.run += 1;
            *t.status.entry(got.status).or_default() += 1;
            if calls::is_elementary(n) {
                match elementary::judge(n, f64::from_bits(i[0]), &got) {
                    None => t.same += 1,
                    Some(want) => {
                        t.unlisted += 1;
                        t.smallest.get_or_insert((i, got, want));
                    }
                }
                continue;
            }
            let want = inside::expected(n, &i);
            if want.status == 0 {
                if inside::watch().mode == inside::Mode::Ours {
                    sites::beside(u, &mut r.sites);
                }
                names.clear();
                branches::taken(n, &i, &want, &mut names);
                for b in &names {
                    *r.branches.entry((n, b)).or_default() += 1;
                }
            }
            if same(n, &i, &got, &want) {
                t.same += 1;
            } else if listed::not_accepted(n, &got, &want) {
                *t.listed.entry(listed::NOT_ACCEPTED).or_default() += 1;
            } else if listed::by_document(n, &i, &want).is_some_and(|d| same(n, &i, &got, &d)) {
                *t.listed.entry(listed::ZEROS).or_default() += 1;
            } else {
                t.unlisted += 1;
                if t.smallest.is_none() {
                    let w = shrink(n, &i);
                    t.smallest = Some((w.clone(), ours::call(n, &w), inside::expected(n, &w)));
                }
            }
            if got.status != 0 {
                let did = inside::instead(n, &i);
                *r.instead.entry((n, got.status)).or_default().entry(did).or_default() += 1;
                if matches!(did, inside::FINITE | inside::UNTOUCHED) && !t.missing {
                    r.went_on.entry((n, got.status)).or_insert_with(|| {
                        simpler(&i, |w| ours::call(n, w).status == got.status && inside::instead(n, w) == did)
                    });
                }
            }
        }
        r.tallies.push(t);
    }
    progress("");
    r
}

/// Each list of each call a word shorter and a word longer: 8, before all else, and nothing written.
fn lengths(a: &Arguments, failed: &mut bool) {
    let (mut run, mut right) = (0, 0);
    for n in (0..CALLS.len()).filter(|n| ours::has(*n)) {
        let mut d = Draw(a.seed.wrapping_mul(0x5000).wrapping_add(n as u64));
        for _ in 0..a.count.div_ceil(100) {
            let i = d.inputs(n);
            for (k, l) in ours::lists(n).into_iter().enumerate() {
                for length in [l - 1, l + 1] {
                    run += 1;
                    let got = ours::bent_call(n, &i, Some((k, length))).status;
                    right += (got == 8) as u64;
                    if got != 8 && run - right == 1 {
                        println!("\n{}: list {k} of length {length} answered {got}", CALLS[n].name);
                    }
                }
            }
        }
    }
    *failed |= right != run;
    println!("\nLists of a wrong length: refused by 8 with nothing written in {right} of {run} calls");
}

fn table(r: &Run, failed: &mut bool) {
    println!("\nCalls, bit for bit with build 2 (elementary functions: range, refusal and distance)");
    println!("{:<36} {:>8} {:>8} {:>8} {:>8}  answers by refusal number", "call", "run", "same", "listed", "unlisted");
    for (n, t) in r.tallies.iter().enumerate().filter(|(n, _)| !calls::is_retired(*n)) {
        if t.missing {
            println!("{:<36} MISSING in the library", CALLS[n].name);
            *failed = true;
            continue;
        }
        let listed: u64 = t.listed.values().sum();
        let by: Vec<String> = t.status.iter().map(|(s, c)| format!("{s}:{c}")).collect();
        println!("{:<36} {:>8} {:>8} {:>8} {:>8}  {}", CALLS[n].name, t.run, t.same, listed, t.unlisted, by.join(" "));
        for (why, c) in &t.listed {
            println!("    listed difference, {c} times: {why}");
        }
        if let Some((i, got, want)) = &t.smallest {
            *failed = true;
            println!("    UNLISTED, for instance: {}", shown(n, i));
            println!("      ours      {}", short(got));
            println!("      expected  {}", short(want));
        }
    }
    let total: u64 = r.tallies.iter().map(|t| t.run).sum();
    let same: u64 = r.tallies.iter().map(|t| t.same).sum();
    println!("{:<36} {total:>8} {same:>8}", "in all");
    println!("\nBranches reached (by calls that are not refused)");
    for (n, b, why) in branches::ALL {
        let c = r.branches.get(&(*n, *b)).copied().unwrap_or(0);
        let note = match (c, why.is_empty()) {
            (0, true) => {
                *failed = true;
                "NEVER REACHED"
            }
            (0, false) => why,
            (_, true) => "",
            (_, false) => {
                *failed = true;
                "REACHED, though said to be out of reach"
            }
        };
        println!("{:<36} {:<32} {:>8}  {note}", CALLS[*n].name, b, c);
    }
    println!("\nWhere ours refuses, the Rust (with the machine's own elementary functions)");
    for ((n, s), did) in &r.instead {
        let did: Vec<String> = did.iter().map(|(w, c)| format!("{w} {c}")).collect();
        println!("{:<36} {s:>3}  {}", CALLS[*n].name, did.join(", "));
    }
    println!("\nOf these, the Rust going on with finite numbers, for instance (words that are not 0, by place)");
    for ((n, s), i) in &r.went_on {
        println!("{:<36} {s:>3}  {}", CALLS[*n].name, not_zero(*n, i));
    }
}

fn main() {
    let a = arguments();
    let missing = ours::open(&format!("{}/libours.so", a.work));
    if let Some(file) = &a.replay {
        replay::write(file, a.seed);
        return;
    }
    let u = Untouched::open(&format!("{}/libuntouched.so", a.work));
    println!("seed {}, {} drawn inputs a call", a.seed, a.count);
    let mut failed = !missing.is_empty();
    let mut r = compare(&a, u.as_ref());
    table(&r, &mut failed);
    lengths(&a, &mut failed);
    examples::check(&format!("{}/DIFFERENCES.md", a.docs), u.as_ref(), a.page, &mut failed);
    lists::compare(a.seed, a.count, &mut failed);
    sites::table(&mut r.sites, u.is_some(), &mut failed);
    failed |= !marked::holds(&format!("{}/SITES.md", a.docs), "beside/run: sites", &sites::listed(&r.sites), a.page);
    match &u {
        Some(u) => far::table(a.seed, a.count, u),
        None => println!("\nBuild 1 was LEFT OUT: nothing was run beside the untouched Rust or nalgebra."),
    }
    for m in &missing {
        println!("missing in the library: {m}");
    }
    println!("\n{}", if failed { "beside: FAILED" } else { "beside: ok" });
    std::process::exit(failed as i32);
}
