//! Our flat laws beside the Rust built for two dimensions. See ../../README.md.
#[path = "../law.rs"]
mod law;
#[path = "../../flags.rs"]
mod flags;
#[path = "../../library.rs"]
mod library;
#[path = "../../marked.rs"]
mod marked;

mod branches;
mod build2;
mod draw;
mod far;
mod ours;
mod rankine;
mod replay;

use build2::Outcome;
use draw::Draw;
use law::{Record, FLOATS, LAWS, PLASTIC};
use std::collections::BTreeMap;

pub fn bits(r: &Record) -> [u64; FLOATS] {
    r.map(f64::to_bits)
}

fn same(x: &Outcome, y: &Outcome) -> bool {
    match (x, y) {
        (Ok(x), Ok(y)) => bits(&x.0) == bits(&y.0) && x.1 == y.1,
        (Err(x), Err(y)) => x == y,
        _ => false,
    }
}

/// The Rust's Rankine with the minimum's second operand, the strength, where both are zeros (row 6).
fn one_zero(rust: &Outcome, strength: f64) -> Outcome {
    let mut x = *rust;
    if let Ok((o, [1, amount])) = &mut x {
        if o[PLASTIC] == 0.0 && strength == 0.0 {
            o[PLASTIC] = strength;
            *amount = strength.to_bits();
        }
    }
    x
}

/// The Rust's outcome, the right one, which of Rankine is RULES', and the branches where that isn't refused.
pub fn right(model: usize, p: &[f64], r: &Record) -> (Outcome, Outcome, Vec<&'static str>) {
    let rust = build2::expected(model, p, r);
    let mut taken = Vec::new();
    if model == 1 {
        let mine = rankine::expected(p, r);
        if let Ok(((o, [stored, _]), branch)) = mine {
            taken.push(branch);
            if stored == 1 {
                taken.push(if o[PLASTIC] == p[2] { "hardening capped" } else { "hardening not capped" });
            }
        }
        return (rust, rankine::outcome(&mine), taken);
    }
    if let Ok((o, [stored, _])) = &rust {
        taken = branches::taken(model, p, r, o, *stored == 1);
    }
    (rust, rust, taken)
}

/// What came of a law's calls.
#[derive(Default)]
struct Tally {
    calls: u64,
    same: u64,
    /// Rows 27 and 6 of docs/DIFFERENCES.md.
    listed: u64,
    zeros: u64,
    unlisted: u64,
    untouched: u64,
    stored: u64,
    refused: BTreeMap<u8, u64>,
    branches: BTreeMap<&'static str, u64>,
    passes: u64,
}

impl Tally {
    fn told(&mut self, who: &str, model: usize, p: &[f64], r: &Record, answered: &Option<Outcome>, right: &Outcome) {
        self.unlisted += 1;
        if self.unlisted <= 3 {
            println!("UNLISTED: {} {p:?}\n  {r:?}\n  {who} {answered:?}\n  right {right:?}", LAWS[model].0);
        }
    }

    fn outcome(&mut self, x: &Outcome) {
        match x {
            Ok((_, [0, _])) => self.untouched += 1,
            Ok(_) => self.stored += 1,
            Err(e) => *self.refused.entry(*e).or_default() += 1,
        }
    }

    /// One record: ours beside what is right, and of Rankine the Rust's own beside both. What is right is handed back.
    fn one(&mut self, model: usize, p: &[f64], r: &Record) -> Outcome {
        let (rust, right, taken) = right(model, p, r);
        taken.into_iter().for_each(|b| *self.branches.entry(b).or_default() += 1);
        self.calls += 1;
        self.outcome(&right);
        let ours = ours::update((model + 4 * (self.calls as usize % 2)) as u64, p, r);
        if !ours.as_ref().is_some_and(|x| same(x, &right)) {
            self.told("ours", model, p, r, &ours, &right);
        } else if same(&right, &rust) {
            self.same += 1;
        } else if same(&right, &one_zero(&rust, p[2])) {
            self.zeros += 1;
        } else if matches!(right, Ok((_, [0, _]))) || !rankine::may_part(p, r) {
            self.told("the Rust, where row 27 has no reason,", model, p, r, &Some(rust), &right);
        } else {
            self.listed += 1;
        }
        right
    }

    /// A list of records with one law: records, answers and counts as each record's outcome has them.
    fn pass(&mut self, model: usize, p: &[f64], list: &[Record]) {
        let right: Vec<Outcome> = list.iter().map(|r| self.one(model, p, r)).collect();
        // A flag refuses the whole pass.
        let flag = right.contains(&Err(6));
        let (mut records, mut answers, mut counts) = (list.concat(), vec![7; 2 * list.len()], [7; 3]);
        let status = ours::pass_lists(model as u64, p, &mut records, &mut answers, &mut counts);
        let (mut wanted, mut told, mut counted) = (list.to_vec(), vec![7; 2 * list.len()], [7; 3]);
        if !flag {
            counted = [0; 3];
            for (k, x) in right.iter().enumerate() {
                let answer = match x {
                    Ok((o, a)) => {
                        wanted[k] = *o;
                        *a
                    }
                    Err(e) => [2, *e as u64],
                };
                told[2 * k..2 * k + 2].copy_from_slice(&answer);
                counted[answer[0] as usize] += 1;
            }
        }
        let words = |l: &[f64]| l.iter().map(|x| x.to_bits()).collect::<Vec<_>>();
        self.passes += 1;
        if status != if flag { 6 } else { 0 }
            || words(&records) != words(&wanted.concat())
            || answers != told
            || counts != counted
        {
            self.unlisted += 1;
            if self.unlisted <= 3 {
                println!(
                    "UNLISTED, a pass: {} {p:?}\n  {list:?}\n  status {status}, answers {answers:?}, counts {counts:?}",
                    LAWS[model].0
                );
            }
        }
    }
}

/// NACC by a friction angle: our m makes the law that the text's `new` makes, in every field, or both are refused alike; another number of axes is 6.
fn angles(draw: &mut Draw, count: u64) -> bool {
    let (mut refused, mut unlisted) = (BTreeMap::<u8, u64>::new(), 0);
    for _ in 0..count {
        let p = draw.angled();
        let right = build2::made(&p);
        let ours = ours::friction(2, p[5]).map(|m| m.map(|m| format!("{:?}", law::by_m(&[&p[..5], &[m]].concat()))));
        if let Err(e) = right {
            *refused.entry(e).or_default() += 1;
        }
        let other = [0, 1, 4, u64::MAX].iter().all(|axes| ours::friction(*axes, p[5]) == Some(Err(6)));
        if ours.as_ref() != Some(&right) || !other {
            unlisted += 1;
            if unlisted <= 3 {
                println!("UNLISTED: new {p:?}\n  ours {ours:?}\n  right {right:?}");
            }
        }
    }
    println!("\nnacc by a friction angle: {count} laws, refused (number: times) {refused:?}, UNLISTED {unlisted}");
    let came = [1, 2, 10].iter().all(|number| refused.contains_key(number));
    if !came {
        println!("  a refusal of the angle NEVER CAME");
    }
    unlisted == 0 && came
}

/// Every list a word shorter and a word longer: 8; a model over 7: 6; nothing written. How many were tried, and whether all are so.
fn lengths() -> (u64, bool) {
    let (mut n, mut fine) = (0, true);
    let mut try_one = |ok: bool| {
        n += 1;
        fine &= ok;
    };
    for model in 0..8 {
        let k = LAWS[model % 4].1;
        let m = model as u64;
        for by in [-1isize, 1] {
            let off = |x: usize| x.wrapping_add_signed(by);
            try_one(ours::refused_by(8, m, off(k), FLOATS, 2, None));
            try_one(ours::refused_by(8, m, k, off(FLOATS), 2, None));
            try_one(ours::refused_by(8, m, k, FLOATS, off(2), None));
            try_one(ours::refused_by(8, m, off(k), 3 * FLOATS, 6, Some(3)));
            try_one(ours::refused_by(8, m, k, off(3 * FLOATS), 6, Some(3)));
            try_one(ours::refused_by(8, m, k, 3 * FLOATS, off(6), Some(3)));
            try_one(ours::refused_by(8, m, k, 3 * FLOATS, 6, Some(off(3))));
        }
        try_one(ours::refused_by(8, m, k, 37, 2, None));
        try_one(ours::refused_by(8, m, k, 37, 2, Some(3)));
    }
    (n, fine)
}

/// The smallest inputs of rows 27 and 28: the page's table is made of the lines that come out.
fn examples(page: &str, untouched: Option<&far::Untouched>, write: bool, failed: &mut bool) {
    let record = |sigma: f64, second: f64| {
        let mut r = [0.0; FLOATS];
        for k in [4, 7, 10, 13, 14, 15, 16, 17] {
            r[k] = 1.0;
        }
        (r[8], r[9]) = (sigma, second);
        draw::compose(&mut r);
        r
    };
    let small = 2f64.powi(-31);
    let all: [(usize, usize, &str, &[f64], Record, bool); 3] = [
        (
            27,
            1,
            "young 2, poisson 0, strength 0.5, rate 1, sigma (1, 2): the diagonal of F",
            &[2.0, 0.0, 0.5, 1.0],
            record(1.0, 2.0),
            false,
        ),
        (
            27,
            1,
            "young 2.5, poisson 0.25, strength and rate 1, sigma (2, 2): the same",
            &[2.5, 0.25, 1.0, 1.0],
            record(2.0, 2.0),
            true,
        ),
        (
            28,
            3,
            "young 1, sigma 2^-31 twice, all else of the law 0: the same",
            &[1.0, 0.0, 0.0, 0.0, 0.0, 0.0],
            record(small, small),
            true,
        ),
    ];
    let mut table: Vec<String> = marked::DIFFERENCES.map(String::from).to_vec();
    println!("\nSmallest inputs of the differences (row of the page, call, input, ours, the Rust)");
    for (row, model, what, p, r, one) in all {
        let diagonal = |o: &Record| format!("{:?}, {:?}", o[0], o[3]);
        let ours = match ours::update(model as u64, p, &r) {
            Some(Ok((o, _))) => diagonal(&o),
            Some(Err(e)) => format!("refused {e}"),
            None => "written though refused".to_string(),
        };
        let rust = match (one, untouched) {
            (true, Some(u)) => u.update(model, p, &r),
            _ => build2::run(model, p, &r, true),
        };
        let line = format!("| {row} | `flat_update {}` | {what} | {ours} | {} |", LAWS[model].0, diagonal(&rust));
        println!("{line}");
        table.push(line);
        if let (false, Some(u)) = (one, untouched) {
            println!("  (the untouched Rust, whose factors come sorted: {})", diagonal(&u.update(model, p, &r)));
        }
    }
    *failed |= !marked::holds(page, "beside/flat/run: smallest", &table, write && untouched.is_some());
}

fn main() {
    let args: Vec<String> = std::env::args().collect();
    let of = |name: &str| args.iter().position(|a| a == name).map(|k| args[k + 1].clone());
    let number = |name: &str, or: u64| of(name).map_or(or, |x| x.parse().expect("a whole number"));
    let (work, seed, count) = (&args[1], number("--seed", 1), number("--count", 100_000));
    ours::open(&format!("{work}/libours.so"));
    if let Some(file) = of("--replay") {
        return replay::write(&file, seed);
    }
    let untouched = far::Untouched::open(&format!("{work}/libuntouched_flat.so"));
    let mut failed = false;
    println!("seed {seed}, {count} records a law");
    let mut draw = Draw(seed);
    for (model, (name, _)) in LAWS.iter().enumerate() {
        let mut t = Tally::default();
        while t.calls < count {
            let (p, r) = draw.edged(model);
            if draw.one_in(8) {
                let n = draw.below(6);
                let more: Vec<Record> = (0..n).map(|_| draw.edged(model).1).chain([r]).collect();
                t.pass(model, &p, &more);
            } else {
                let _ = t.one(model, &p, &r);
            }
        }
        println!(
            "\n{name}: {} records, {} passes over lists of them; same as build 2 {}, listed {} (row 27) and {} (row 6), UNLISTED {}",
            t.calls, t.passes, t.same, t.listed, t.zeros, t.unlisted
        );
        println!("  untouched {}, stored {}, refused (number: times) {:?}", t.untouched, t.stored, t.refused);
        failed |= t.unlisted != 0;
        for b in branches::ALL[model] {
            let n = t.branches.get(b).copied().unwrap_or(0);
            println!("  {n:>8} {b}{}", if n == 0 { "  NEVER CAME" } else { "" });
            failed |= n == 0;
        }
        for number in [1, 2, 3, 10] {
            if !t.refused.contains_key(&number) {
                println!("  refusal {number} NEVER CAME");
                failed = true;
            }
        }
    }
    failed |= !angles(&mut draw, count);
    let (tried, fine) = lengths();
    println!(
        "\nlists of a wrong length: {tried} calls, {}",
        if fine { "all refused by 8, nothing written" } else { "NOT ALL REFUSED BY 8" }
    );
    failed |= !fine;
    examples(&format!("{}/DIFFERENCES.md", of("--docs").unwrap_or_default()), untouched.as_ref(), of("--page").is_some(), &mut failed);
    match &untouched {
        Some(u) => far::table(u, &mut draw, count / 4),
        None => println!("\nbuild 1 is LEFT OUT"),
    }
    println!("\n{}", if failed { "FAILED" } else { "all as it should be" });
    std::process::exit(failed as i32);
}
