//! The list pass, the pass with failure and the sheet. None is in the Rust: RULES sections 6 and 7 decide, and each record's
//! law is build 2's.
use crate::calls::{self, BARE, FLOATS, LAWS};
use crate::draw::Draw;
use crate::inside::{self, finite};
use crate::listed;
use crate::ours;

const MARK: u64 = 0x7ff4_dead_beef_0002;

/// A law's step on one record: the outcome's two numbers; the record is new where it is stored. Of two zeros as RULES has it.
fn step(model: usize, p: &[u64], record: &mut [u64]) -> (u64, u64) {
    let (n, i) = (calls::UPDATE + model % LAWS, [p, record].concat());
    let a = inside::expected(n, &i);
    let a = listed::by_document(n, &i, &a).unwrap_or(a);
    match (a.status, a.out[FLOATS]) {
        (0, 1) => {
            record.copy_from_slice(&a.out[..FLOATS]);
            (1, a.out[FLOATS + 1])
        }
        (0, _) => (0, 0),
        (n, _) => (2, n as u64),
    }
}

/// The principal stresses from sigma, worked from the left; nothing where one isn't finite or a NaN arises.
fn principal(law: &[f64], r: &[u64]) -> Option<[f64; 3]> {
    let f = |k: usize| f64::from_bits(r[k]);
    let (split, lambda, mu) = (law[0] == 1.0, law[2], law[3]);
    let (phase, h) = (f(30), f(33));
    let j = f(18) * f(19) * f(20);
    let around = lambda * h * (j - 1.0) * j;
    let mut nan = around.is_nan();
    let mut out = [0.0; 3];
    for k in 0..3 {
        let s = f(18 + k);
        let along = |e: f64| 2.0 * mu * h * e * s;
        let e = s - 1.0;
        out[k] = if phase == 1.0 {
            along(e) + around
        } else {
            let (pos, neg) = (along(if e > 0.0 { e } else { 0.0 }), along(if e < 0.0 { e } else { 0.0 }));
            nan |= pos.is_nan() | neg.is_nan();
            let (pos, neg) = if j < 1.0 { (pos, neg + around) } else { (pos + around, neg) };
            let kept = if split && phase == 0.0 { 0.0 } else { 1.0 };
            pos * kept + neg
        };
    }
    (!nan && out.iter().all(|x| x.is_finite())).then_some(out)
}

fn fails(limits: &[f64], s: [f64; 3]) -> bool {
    let greatest = s[0].max(s[1]).max(s[2]);
    let least = s[0].min(s[1]).min(s[2]);
    greatest > limits[0] || (greatest - least) / 2.0 > limits[1]
}

fn floats(w: &[u64]) -> Vec<f64> {
    w.iter().map(|x| f64::from_bits(*x)).collect()
}

fn is_flag(x: u64) -> bool {
    x == 0 || x == 1f64.to_bits()
}

/// Whether a model has a law: 4 to 7 name those of 0 to 3.
fn known(model: u64) -> bool {
    model < 2 * LAWS as u64
}

fn parameters(model: u64) -> usize {
    calls::parameters(model as usize % LAWS)
}

/// How many floats a record has in a sheet of the model.
fn sheet_floats(model: u64) -> usize {
    if model < LAWS as u64 {
        BARE
    } else {
        FLOATS
    }
}

fn flag_of(model: u64, p: &[u64]) -> bool {
    calls::CALLS[calls::UPDATE + model as usize % LAWS].flag.map_or(true, |k| is_flag(p[k]))
}

/// Limits and the corotated law of a pass with failure.
struct Judge {
    limits: Vec<u64>,
    law: Vec<u64>,
}

/// Whole records with two answers each, and every other list as long as it should be; those of an unknown model are of any length.
fn fit(model: u64, p: &[u64], judge: Option<&Judge>, words: usize, places: usize, counts: usize) -> bool {
    words % FLOATS == 0
        && places == words / FLOATS * 2
        && (!known(model) || p.len() == parameters(model))
        && judge.is_none_or(|j| j.limits.len() == 2 && j.law.len() == 4)
        && counts == if judge.is_some() { 4 } else { 3 }
}

/// The law, and then the verdict on the record that it leaves: no law writes phase, so that it is the one that came.
fn judged(model: usize, p: &[u64], j: &Judge, r: &mut [u64]) -> ((u64, u64), bool) {
    if !j.limits.iter().chain(&j.law).all(|x| finite(*x)) {
        return ((2, 1), false);
    }
    let o = step(model, p, r);
    if o.0 == 2 {
        return (o, false);
    }
    match principal(&floats(&j.law), r) {
        Some(s) => (o, fails(&floats(&j.limits), s)),
        None => ((2, 3), false),
    }
}

/// What a pass is to leave: records, answers, counts; or its refusal.
fn passed(model: u64, p: &[u64], judge: Option<&Judge>, records: &mut [u64], answers: &mut [u64], counts: &mut [u64]) -> u8 {
    if !fit(model, p, judge, records.len(), answers.len(), counts.len()) {
        return 8;
    }
    if !known(model) || !flag_of(model, p) || judge.is_some_and(|j| !is_flag(j.law[0])) {
        return 6;
    }
    counts.fill(0);
    for (k, r) in records.chunks_mut(FLOATS).enumerate() {
        let was = r.to_vec();
        let (o, yes) = match judge {
            Some(j) => judged(model as usize, p, j, r),
            None => (step(model as usize, p, r), false),
        };
        if o.0 == 2 {
            r.copy_from_slice(&was);
        } else if yes {
            r[30] = 0;
            counts[3] += 1;
        }
        answers[2 * k] = o.0;
        answers[2 * k + 1] = o.1;
        counts[o.0 as usize] += 1;
    }
    0
}

/// Words read in seven-bit groups: the number and the place after it, or the refusal.
fn number(s: &[u8], at: usize) -> Result<(u64, usize), u8> {
    let byte = |k: usize| s.get(k).copied().ok_or(4u8);
    let a = byte(at)?;
    if a < 0x80 {
        return Ok((a as u64, at + 1));
    }
    let b = byte(at + 1)?;
    if b >= 0x80 || b == 0 {
        return Err(5);
    }
    Ok((a as u64 - 0x80 + ((b as u64) << 7), at + 2))
}

struct Sheet {
    model: u64,
    p: Vec<u64>,
    count: usize,
    at: usize,
    records: Vec<u64>,
}

fn read(s: &[u8]) -> Result<Sheet, u8> {
    let word = |k: usize| s.get(k..k + 8).map(|b| u64::from_le_bytes(b.try_into().unwrap())).ok_or(4u8);
    let (model, mut at) = number(s, 0)?;
    if !known(model) {
        return Err(6);
    }
    let mut p = Vec::new();
    for k in 0..parameters(model) {
        p.push(word(at)?);
        at += 8;
        if matches!((model % LAWS as u64, k), (2, 6) | (3, 3)) && !is_flag(p[k]) {
            return Err(6);
        }
    }
    let (count, at) = number(s, at)?;
    if count > 200 {
        return Err(7);
    }
    let floats = sheet_floats(model);
    let mut words = Vec::new();
    for k in 0..floats * count as usize {
        words.push(word(at + 8 * k)?);
    }
    if s.len() > at + 8 * words.len() {
        return Err(7);
    }
    let mut records = Vec::new();
    for r in words.chunks(floats) {
        records.extend(r);
        if floats == BARE {
            records.push(inside::determinant(r));
        }
    }
    Ok(Sheet { model, p, count: count as usize, at, records })
}

fn groups(n: u64) -> Vec<u8> {
    if n < 128 {
        vec![n as u8]
    } else {
        vec![(n % 128) as u8 + 128, (n / 128) as u8]
    }
}

fn sheet(d: &mut Draw) -> Vec<u8> {
    let model = d.below(2 * LAWS as u64);
    let (p, records) = drawn(d, model as usize % LAWS, 3);
    let mut count = (records.len() / FLOATS) as u64;
    let mut s = groups(model);
    if d.one_in(16) {
        let odd = [vec![8], vec![127], vec![0x80, 0], vec![0x80, 0x80, 1], vec![0x80], vec![0x83, 1], vec![0xff, 0x7f]];
        s = odd[d.below(odd.len() as u64) as usize].clone();
    }
    for x in &p {
        s.extend(x.to_le_bytes());
    }
    if d.one_in(16) {
        count = [200, 201, 128, 16383, count + 1][d.below(5) as usize];
    }
    s.extend(groups(count));
    if d.one_in(24) {
        *s.last_mut().unwrap() |= 0x80;
    }
    for x in records.chunks(FLOATS).flat_map(|r| &r[..sheet_floats(model)]) {
        s.extend(x.to_le_bytes());
    }
    match d.below(12) {
        0 => {
            let n = d.below(s.len() as u64 + 1) as usize;
            s.truncate(n)
        }
        1 => s.push(d.word() as u8),
        _ => {}
    }
    s
}

/// A law's parameters and up to `most` records for it.
fn drawn(d: &mut Draw, model: usize, most: u64) -> (Vec<u64>, Vec<u64>) {
    let k = calls::parameters(model);
    let first = d.inputs(calls::UPDATE + model);
    let mut records = Vec::new();
    for _ in 0..d.below(most + 1) {
        records.extend(&d.inputs(calls::UPDATE + model)[k..]);
    }
    (first[..k].to_vec(), records)
}

/// Limits about as large as the stresses of the first record, as it came or as the law leaves it.
fn judge(d: &mut Draw, model: usize, p: &[u64], records: &[u64]) -> Judge {
    let law = d.inputs(calls::COROTATED_POS_ENERGY)[..4].to_vec();
    let r = d.inputs(calls::UPDATE + model % LAWS)[p.len()..].to_vec();
    let mut r = if records.is_empty() { r } else { records[..FLOATS].to_vec() };
    if d.one_in(2) {
        step(model, p, &mut r);
    }
    let s = principal(&floats(&law), &r).unwrap_or([1.0, 2.0, 3.0]);
    let scale = |d: &mut Draw| 2.0 * (d.below(1000) as f64) / 1000.0;
    let mut limits = vec![(s[0].abs().max(s[2].abs()) * scale(d)).to_bits(), ((s[0] - s[2]).abs() * scale(d)).to_bits()];
    if d.one_in(16) {
        limits[d.below(2) as usize] = d.edge().to_bits();
    }
    if d.one_in(64) {
        limits[d.below(2) as usize] = f64::NAN.to_bits();
    }
    Judge { limits, law }
}

const OUTCOMES: [&str; 4] = ["untouched", "stored", "refused", "failed"];

#[derive(Default)]
struct Tally {
    run: u64,
    unlisted: u64,
    refused: std::collections::BTreeMap<u8, u64>,
    outcomes: [u64; 4],
    /// Records refused by 11.
    wrong: u64,
    first: String,
}

impl Tally {
    fn note(&mut self, same: bool, status: u8, counts: &[u64], what: impl Fn() -> String) {
        self.run += 1;
        *self.refused.entry(status).or_default() += 1;
        if status == 0 {
            for (a, c) in self.outcomes.iter_mut().zip(counts) {
                *a += c;
            }
        }
        if !same {
            self.unlisted += 1;
            if self.first.is_empty() {
                self.first = what();
            }
        }
    }
}

/// Now and then a list is a word shorter or longer.
fn bend(d: &mut Draw, l: &mut Vec<u64>) {
    if d.one_in(60) {
        if d.one_in(2) {
            l.push(0);
        } else {
            l.pop();
        }
    }
}

fn one_pass(d: &mut Draw, with_failure: bool, t: &mut Tally) {
    let mut model = d.below(2 * LAWS as u64);
    let most = if d.one_in(200) { 300 } else { 4 };
    let (mut p, mut records) = drawn(d, model as usize % LAWS, most);
    let mut j = with_failure.then(|| judge(d, model as usize, &p, &records));
    let (mut answers, mut counts) = (vec![MARK; records.len() / FLOATS * 2], vec![MARK; if with_failure { 4 } else { 3 }]);
    if d.one_in(24) {
        model = calls::NO_MODEL + d.below(3);
    }
    for l in [&mut p, &mut records, &mut answers, &mut counts] {
        bend(d, l);
    }
    if let Some(j) = &mut j {
        bend(d, &mut j.limits);
        bend(d, &mut j.law);
    }
    let (mut r1, mut a1, mut c1) = (records.clone(), answers, counts);
    let (mut r2, mut a2, mut c2) = (r1.clone(), a1.clone(), c1.clone());
    let want = passed(model, &p, j.as_ref(), &mut r1, &mut a1, &mut c1);
    let got = match &j {
        Some(j) => ours::pass_with_failure(model, [&p, &j.limits, &j.law], &mut r2, &mut a2, &mut c2),
        None => ours::pass(model, &p, &mut r2, &mut a2, &mut c2),
    };
    let same = want == got && r1 == r2 && a1 == a2 && c1 == c2;
    t.wrong += a1.chunks(2).filter(|a| want == 0 && **a == [2, 11]).count() as u64;
    t.note(same, want, &c1, || {
        let at = r1.iter().zip(&r2).position(|(x, y)| x != y);
        format!("model {model}, {} records: status {got} for {want}, answers {a2:x?} for {a1:x?}, counts {c2:?} for {c1:?}, first record word that differs {at:?}", records.len() / FLOATS)
    });
}

/// Each record's last float becomes the determinant of its F, whatever stood there; 8 for a list that is no whole number of records.
fn one_fill(d: &mut Draw, t: &mut Tally) {
    let model = d.below(LAWS as u64) as usize;
    let (_, mut records) = drawn(d, model, 4);
    for r in records.chunks_mut(FLOATS) {
        if d.one_in(2) {
            r[BARE] = d.word();
        }
    }
    if d.one_in(16) {
        records = records.chunks(FLOATS).flat_map(|r| &r[..BARE]).copied().collect();
    }
    bend(d, &mut records);
    let (mut r1, mut r2) = (records.clone(), records);
    let want = if r1.len() % FLOATS == 0 { 0 } else { 8 };
    if want == 0 {
        r1.chunks_mut(FLOATS).for_each(inside::complete);
    }
    let got = ours::fill_determinants(&mut r2);
    let at = r1.iter().zip(&r2).position(|(x, y)| x != y);
    t.note(want == got && r1 == r2, want, &[], || {
        format!("{} words: status {got} for {want}, first word that differs {at:?}", r1.len())
    });
}

fn one_sheet(d: &mut Draw, run: bool, t: &mut Tally) {
    let s = sheet(d);
    let room = if d.one_in(4) { d.below(4) as usize } else { 200 };
    let mut words = room * FLOATS;
    if d.one_in(24) {
        words += 1;
    }
    let places = if d.one_in(24) { room * 2 + 1 } else { room * 2 };
    let (right, off) = (if run { 4 } else { 11 }, d.below(2) as usize * 2);
    let heads = if d.one_in(48) { right - 1 + off } else { right };
    let (mut r1, mut a1, mut h1) = (vec![MARK; words], vec![MARK; places], vec![MARK; heads]);
    let (mut r2, mut a2, mut h2) = (r1.clone(), a1.clone(), h1.clone());
    let early = heads != right || words % FLOATS != 0 || (run && places != words / FLOATS * 2);
    let read = if early { Err(8) } else { read(&s) };
    let read = read.and_then(|x| if x.count > words / FLOATS { Err(8) } else { Ok(x) });
    let want = match &read {
        Err(n) => *n,
        Ok(x) => {
            r1[..x.records.len()].copy_from_slice(&x.records);
            if run {
                let mut c = [0; 3];
                passed(x.model, &x.p, None, &mut r1[..FLOATS * x.count], &mut a1[..2 * x.count], &mut c);
                h1.copy_from_slice(&[x.count as u64, c[0], c[1], c[2]]);
            } else {
                h1.fill(0);
                h1[0] = x.model;
                h1[1..1 + x.p.len()].copy_from_slice(&x.p);
                h1[9] = x.count as u64;
                h1[10] = x.at as u64;
            }
            0
        }
    };
    let got = if run { ours::run_sheet(&s, &mut r2, &mut a2, &mut h2) } else { ours::read_sheet(&s, &mut h2, &mut r2) };
    let same = want == got && r1 == r2 && (!run || a1 == a2) && h1 == h2;
    let counts = if run && want == 0 { h1[1..].to_vec() } else { vec![] };
    t.note(same, want, &counts, || format!("{} bytes, room {words}: status {got} for {want}, {h2:x?} for {h1:x?}", s.len()));
}

pub fn compare(seed: u64, count: u64, failed: &mut bool) {
    println!("\nLists and sheets (RULES sections 6 and 7, each law build 2's)");
    println!("{:<20} {:>8} {:>8}  answers by refusal number; records by outcome", "call", "run", "unlisted");
    for (k, name) in calls::LISTS.into_iter().enumerate() {
        if !ours::has_name(name) {
            println!("{name:<20} MISSING in the library");
            *failed = true;
            continue;
        }
        let mut d = Draw(seed.wrapping_mul(0x3000).wrapping_add(k as u64));
        let mut t = Tally::default();
        for _ in 0..count.div_ceil(2) {
            match name {
                "pass" | "pass_with_failure" => one_pass(&mut d, name == "pass_with_failure", &mut t),
                "fill_determinants" => one_fill(&mut d, &mut t),
                "read_sheet" | "run_sheet" => one_sheet(&mut d, name == "run_sheet", &mut t),
                _ => panic!("{name} has no run here"),
            }
        }
        let records: Vec<String> =
            OUTCOMES.iter().zip(t.outcomes).filter(|(_, c)| *c > 0).map(|(what, c)| format!("{what} {c}")).collect();
        let by: Vec<String> = t.refused.iter().map(|(s, c)| format!("{s}:{c}")).collect();
        println!("{:<20} {:>8} {:>8}  {}; {}", name, t.run, t.unlisted, by.join(" "), records.join(", "));
        let due: &[u8] = match name {
            "fill_determinants" => &[0, 8],
            name if name.ends_with("_sheet") => &[0, 4, 5, 6, 7, 8],
            _ => &[0, 6, 8],
        };
        for n in due.iter().filter(|n| !t.refused.contains_key(n)) {
            *failed = true;
            println!("    refusal {n} NEVER CAME");
        }
        let outcomes = match name {
            "read_sheet" | "fill_determinants" => 0,
            "pass_with_failure" => 4,
            _ => 3,
        };
        for (what, _) in OUTCOMES.iter().zip(t.outcomes).take(outcomes).filter(|(_, c)| *c == 0) {
            *failed = true;
            println!("    {what} NEVER CAME");
        }
        if name.starts_with("pass") {
            *failed |= t.wrong == 0;
            println!("    {} records refused by 11{}", t.wrong, if t.wrong == 0 { ": IT NEVER CAME" } else { "" });
        }
        if t.unlisted > 0 {
            *failed = true;
            println!("    UNLISTED, for instance: {}", t.first);
        }
    }
}
