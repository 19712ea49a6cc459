//! Times of ours beside the Rust, in one run: medians of interleaved rounds, CPU time; and instructions, by callgrind.
//! timing WORK [--count | --growth | --drawn]: WORK is the folder with libuntouched.so, and speed.tsv is left there; --count is how the
//! program runs itself under callgrind; --growth tells besides how a pass grows with its list, and leaves the records in WORK/drawn0 to 3
//! and 100 sheets of them in WORK/sheets; --drawn leaves the records alone. Built with `our_root` it times the laws alone, beside the rival
//! that takes our root, and adds that to speed.tsv.
mod callgrind;
#[path = "../../calls.rs"]
#[allow(dead_code)]
mod calls;
#[path = "../../externs.rs"]
#[allow(dead_code)]
#[rustfmt::skip]
mod externs;
mod fair;
mod growth;
#[path = "../../library.rs"]
mod library;
mod records;
#[cfg(feature = "our_root")]
mod root;
mod sides;

use calls::{BARE, FLOATS};
use externs::*;
use fair::FairPass;
use records::{bits, drawn, Draw, LAWS};
use sides::*;
use std::collections::BTreeMap;
use std::ffi::c_int;

/// A line of a table: how many records or calls a run has, and its sides, ours first.
struct Row {
    name: String,
    units: usize,
    sides: Vec<Option<Box<dyn Side>>>,
}

fn some(side: impl Side + 'static) -> Option<Box<dyn Side>> {
    Some(Box::new(side))
}

fn laws(work: &str) -> Vec<Row> {
    let file = format!("{work}/libuntouched.so");
    let mut rows = Vec::new();
    for (model, law) in LAWS.iter().enumerate() {
        for units in [4096, 200] {
            let (p, records) = (bits(law.parameters), drawn(model, units));
            let rust = |columns, updates| some(RustPass::new(model, &p, &records, columns, updates));
            let untouched = untouched(&file).and_then(|updates| rust(true, Box::new(updates)));
            let fair = some(FairPass::new(model, &p, &records));
            let sides = vec![some(OurPass::new(model, &p, &records)), untouched, rust(false, Box::new(less_svd)), fair];
            rows.push(Row { name: format!("{}, {units}", law.name), units, sides });
        }
    }
    rows
}

/// The laws again, ours beside the fair rival alone: of build 4.
fn rooted() -> Vec<Row> {
    let row = |model: usize| {
        let (p, records) = (bits(LAWS[model].parameters), drawn(model, 4096));
        let sides = vec![some(OurPass::new(model, &p, &records)), some(FairPass::new(model, &p, &records))];
        Row { name: format!("{}, 4096", LAWS[model].name), units: 4096, sides }
    };
    (0..LAWS.len()).map(row).collect()
}

/// Our factors of a law's records beside nalgebra's, the values the same.
fn factors(work: &str) -> Vec<Row> {
    let file = format!("{work}/libuntouched.so");
    let row = |model: usize| {
        let records = drawn(model, 4096);
        let svd = TheirFactors::new(&file, &records).map(|side| Box::new(side) as Box<dyn Side>);
        let sides = vec![some(OurFactors::new(&records)), svd];
        Row { name: format!("factors of {}, 4096", LAWS[model].name), units: 4096, sides }
    };
    (0..LAWS.len()).map(row).collect()
}

/// A record's stress with its verdict, its stress alone, and the Rust's verdict on that stress: the principal values and their check are what
/// the first has more than the second.
fn verdicts(work: &str) -> Vec<Row> {
    let records = drawn(1, 4096);
    let theirs = TheirVerdict::new(&format!("{work}/libuntouched.so"), &records).map(|side| Box::new(side) as Box<dyn Side>);
    let ours = |judged: bool| some(OurStress { records: records.clone(), judged });
    vec![Row { name: "stress and verdict, 4096".to_string(), units: 4096, sides: vec![ours(true), ours(false), theirs] }]
}

/// A law's pass that factors first beside the untouched Rust's update, which does too.
fn factored(work: &str) -> Vec<Row> {
    let file = format!("{work}/libuntouched.so");
    let row = |model: usize, units: usize| {
        let (p, records) = (bits(LAWS[model].parameters), drawn(model, units));
        let rust = untouched(&file).and_then(|updates| some(RustPass::new(model, &p, &records, true, Box::new(updates))));
        let sides = vec![some(OurPass::factored(model, &p, &records)), rust];
        Row { name: format!("factored {}, {units}", LAWS[model].name), units, sides }
    };
    let mut rows: Vec<Row> = (0..LAWS.len()).flat_map(|model| [row(model, 4096), row(model, 200)]).collect();
    rows.push(active(&file));
    rows
}

/// The same of Drucker-Prager's records without those that its flag leaves: of these the Rust works no factors.
fn active(file: &str) -> Row {
    const PHASE: usize = 30;
    let p = bits(LAWS[2].parameters);
    let records: Vec<u64> = drawn(2, 4096).chunks(FLOATS).filter(|r| r[PHASE] == 0).flatten().copied().collect();
    let rust = untouched(file).and_then(|updates| some(RustPass::new(2, &p, &records, true, Box::new(updates))));
    let units = records.len() / FLOATS;
    Row { name: format!("factored drucker_prager, active, {units}"), units, sides: vec![some(OurPass::factored(2, &p, &records)), rust] }
}

type Ours = unsafe extern "C" fn(f64, *mut u64, usize) -> u8;
type Std = fn(f64) -> f64;
const FUNCTIONS: [(&str, Ours, Std, f64, f64); 9] = [
    ("exp", pasoletu_exp, f64::exp, -700.0, 700.0),
    ("ln", pasoletu_ln, f64::ln, 0.001, 16.0),
    ("sinh", pasoletu_sinh, f64::sinh, -700.0, 700.0),
    ("sin", pasoletu_sin, f64::sin, -8.0, 8.0),
    ("sqrt", pasoletu_sqrt, f64::sqrt, 0.001, 16.0),
    ("cbrt", pasoletu_cbrt, |x| x.powf(1.0 / 3.0), 0.001, 16.0),
    ("inv_cbrt", pasoletu_inv_cbrt, |x| x.powf(-1.0 / 3.0), 0.001, 16.0),
    ("cbrt_squared", pasoletu_cbrt_squared, |x| x.powf(2.0 / 3.0), 0.001, 16.0),
    ("inv_cbrt_squared", pasoletu_inv_cbrt_squared, |x| x.powf(-2.0 / 3.0), 0.001, 16.0),
];

fn functions() -> Vec<Row> {
    let row = |&(name, ours, std, low, high): &(&str, Ours, Std, f64, f64)| {
        let mut d = Draw(1);
        let xs: Vec<f64> = (0..4096).map(|_| d.between(low, high)).collect();
        let sides = vec![some(OurCalls(ours, xs.clone())), some(StdCalls(std, xs))];
        Row { name: name.to_string(), units: 4096, sides }
    };
    FUNCTIONS.iter().map(row).collect()
}

/// A full sheet of 200 records: model, parameters, the count in two groups, records, with their determinants or without.
fn spelt(number: usize, records: &[u64]) -> Vec<u8> {
    let floats = if number < LAWS.len() { BARE } else { FLOATS };
    let mut bytes = vec![number as u8];
    bytes.extend(LAWS[number % LAWS.len()].parameters.iter().flat_map(|x| x.to_le_bytes()));
    bytes.extend([200 % 128 + 128, 200u8 / 128]);
    bytes.extend(records.chunks(FLOATS).flat_map(|r| &r[..floats]).flat_map(|x| x.to_le_bytes()));
    bytes
}

/// Each law's records, for the hosts' own passes, and full sheets of them, for a night's run.
fn write_drawn(work: &str, sheets: usize) {
    let lists: Vec<Vec<u64>> = (0..LAWS.len()).map(|model| drawn(model, 4096)).collect();
    for (model, list) in lists.iter().enumerate() {
        let bytes: Vec<u8> = list.iter().flat_map(|x| x.to_le_bytes()).collect();
        std::fs::write(format!("{work}/drawn{model}"), bytes).unwrap();
    }
    std::fs::create_dir_all(format!("{work}/sheets")).unwrap();
    for k in 0..sheets {
        let from = k * 37 % 3896 * FLOATS;
        let records = &lists[k % LAWS.len()][from..from + 200 * FLOATS];
        std::fs::write(format!("{work}/sheets/{k:03}.sheet"), spelt(LAWS.len() + k % LAWS.len(), records)).unwrap();
    }
}

/// A sheet read, or read and run. It must give what the list does.
fn sheet(number: usize, run: bool) -> Row {
    let (model, floats) = (number % LAWS.len(), if number < LAWS.len() { BARE } else { FLOATS });
    let law = &LAWS[model];
    let records = drawn(model, 200);
    let bytes = spelt(number, &records);
    let (mut sheet, mut list) = (Sheet::new(bytes, run), OurPass::new(model, &bits(law.parameters), &records));
    sheet.run();
    if run {
        list.run();
    }
    assert!(sheet.records() == list.records());
    let name = format!("{}, {} of {floats}", if run { "run_sheet" } else { "read_sheet" }, law.name);
    Row { name, units: 200, sides: vec![some(sheet)] }
}

fn sheets() -> Vec<Row> {
    let mut rows = vec![sheet(2, false), sheet(6, false)];
    rows.extend((0..4).map(|model| sheet(model, true)));
    rows
}

/// CPU time of this process in ns.
fn now() -> f64 {
    extern "C" {
        fn clock_gettime(clock: c_int, t: *mut [i64; 2]) -> c_int;
    }
    const PROCESS_CPU: c_int = 2;
    let mut t = [0; 2];
    unsafe { clock_gettime(PROCESS_CPU, &mut t) };
    t[0] as f64 * 1e9 + t[1] as f64
}

fn median(mut v: Vec<f64>) -> f64 {
    v.sort_by(f64::total_cmp);
    v[v.len() / 2]
}

fn timed(run: impl FnOnce()) -> f64 {
    let t = now();
    run();
    now() - t
}

/// ns a unit for each side: the median of rounds in which the sides take turns, less what the clock itself takes.
fn times(row: &mut Row) -> Vec<Option<f64>> {
    let rounds = if row.units > 1000 { 301 } else { 3001 };
    let clock = median((0..rounds).map(|_| timed(|| ())).collect());
    let mut seen: Vec<Vec<f64>> = row.sides.iter().map(|_| Vec::new()).collect();
    for _ in 0..rounds {
        for (side, seen) in row.sides.iter_mut().zip(&mut seen) {
            if let Some(side) = side {
                side.ready();
                seen.push(timed(|| side.run()));
            }
        }
    }
    let units = row.units as f64;
    seen.into_iter().map(|v| (!v.is_empty()).then(|| (median(v) - clock) / units)).collect()
}

/// Whether the sides made the same of the records, but for the logarithm's and its like's last bits and the SVD's.
fn agree(row: &mut Row) {
    let mut made = Vec::new();
    for side in row.sides.iter_mut().flatten() {
        side.ready();
        side.run();
        made.push(side.records());
    }
    // F, the six scalars and F's determinant: the Rust does not hold sigma.
    for other in &made[1..] {
        for (k, (x, y)) in made[0].iter().zip(other).enumerate().filter(|(k, _)| !(9..30).contains(&(k % FLOATS))) {
            let (x, y) = (f64::from_bits(*x), f64::from_bits(*y));
            let (record, word) = (k / FLOATS, k % FLOATS);
            assert!((x - y).abs() <= 1e-6 * (1.0 + x.abs()), "{}: record {record}, word {word}: {x} for {y}", row.name);
        }
    }
}

/// Whether the sides have the same sigma of each record, in any order.
fn same_values(row: &mut Row) {
    let mut made = Vec::new();
    for side in row.sides.iter_mut().flatten() {
        side.ready();
        side.run();
        made.push(side.records());
    }
    let sorted = |r: &[u64]| {
        let mut s: [f64; 3] = std::array::from_fn(|k| f64::from_bits(r[18 + k]));
        s.sort_by(f64::total_cmp);
        s
    };
    for other in &made[1..] {
        for (record, (x, y)) in made[0].chunks(FLOATS).zip(other.chunks(FLOATS)).enumerate() {
            let (x, y) = (sorted(x), sorted(y));
            assert!((0..3).all(|k| (x[k] - y[k]).abs() <= 1e-12), "{}: record {record}: {x:?} for {y:?}", row.name);
        }
    }
}

fn count(row: &mut Row) {
    for (k, side) in row.sides.iter_mut().enumerate() {
        if let Some(side) = side {
            // Once before, so that no symbol is still to be found.
            side.ready();
            side.run();
            side.ready();
            callgrind::count(&format!("{} {k}", row.name), || side.run());
        }
    }
}

fn cell(x: Option<f64>, places: usize) -> String {
    format!("{:>10}", x.map_or("-".to_string(), |x| format!("{x:.places$}")))
}

type Counts = Option<BTreeMap<String, f64>>;

/// The figures of the sides, and ours over each of the others.
fn figures(v: &[Option<f64>]) -> String {
    let ratio = |k: usize| Some(v[0]? / v[k]?);
    let plain = v.iter().map(|x| cell(*x, 1));
    plain.chain((1..v.len()).map(|k| cell(ratio(k), 2))).collect()
}

/// A line a row: ns, then instructions; the same in `told`, a line a side. Answers our ns of each row.
fn table(title: &str, sides: &[&str], rows: &mut [Row], counts: &Counts, told: &mut String) -> Vec<f64> {
    let ratios = sides[1..].iter().map(|s| format!("{:>10}", format!("/{s}")));
    let heads: String = sides.iter().map(|s| format!("{s:>10}")).chain(ratios).collect();
    let wide = heads.len();
    println!("\n{title}\n{:<34}{:<wide$}  |      instructions\n{:<34}{heads}  |{heads}", "", "      ns", "");
    let mut ours = Vec::new();
    for row in rows {
        let ns = times(row);
        let count = |k: usize| counts.as_ref()?.get(&format!("{} {k}", row.name)).map(|n| n / row.units as f64);
        let instructions: Vec<Option<f64>> = (0..sides.len()).map(count).collect();
        println!("{:<34}{}  |{}", row.name, figures(&ns), figures(&instructions));
        let word = |x: Option<f64>| x.map_or("-".to_string(), |x| format!("{x:.1}"));
        for (k, side) in sides.iter().enumerate() {
            told.push_str(&format!("{}\t{side}\t{}\t{}\n", row.name, word(ns[k]), word(instructions[k])));
        }
        ours.extend(ns[0]);
    }
    ours
}

/// How a pass grows: records a second, and what a plain copy of the list does.
fn grow(told: &mut String) {
    println!("\nRecords a second of a law's pass, by the clock, the best of a few turns, beside a plain copy of the list");
    println!("{:<18}{:>10}{:>9}{:>16}{:>16}", "", "records", "threads", "ours", "copied");
    for g in growth::all(|model| drawn(model, 4096)) {
        println!("{:<18}{:>10}{:>9}{:>16.0}{:>16.0}", g.law, g.count, g.threads, g.ours, g.copied);
        told.push_str(&format!("grown\t{}\t{}\t{}\t{:.0}\t{:.0}\n", g.law, g.count, g.threads, g.ours, g.copied));
    }
}

fn load() -> String {
    std::fs::read_to_string("/proc/loadavg").unwrap_or_default().split(' ').take(3).collect::<Vec<_>>().join(" ")
}

/// What build 4 tells: the rival's root is ours. Its lines are added to those of build 3.
fn tell_rooted(work: &str, counting: bool) {
    let mut rows = rooted();
    if counting {
        return rows.iter_mut().for_each(count);
    }
    let counts = callgrind::counted(work);
    rows.iter_mut().for_each(agree);
    let mut told = String::new();
    let title = "A record of a law's pass, factors given, beside the fair rival with our root in it";
    table(title, &["ours, again", "our root"], &mut rows, &counts, &mut told);
    let file = format!("{work}/speed.tsv");
    let before = std::fs::read_to_string(&file).unwrap_or_default();
    std::fs::write(file, before + &told).unwrap();
}

fn main() {
    let args: Vec<String> = std::env::args().collect();
    let work = &args[1];
    if cfg!(feature = "our_root") {
        return tell_rooted(work, args.iter().any(|a| a == "--count"));
    }
    if args.iter().any(|a| a == "--drawn") {
        return write_drawn(work, 0);
    }
    let (mut laws, mut functions, mut sheets) = (laws(work), functions(), sheets());
    let (mut factors, mut verdicts, mut factored) = (factors(work), verdicts(work), factored(work));
    if args.iter().any(|a| a == "--count") {
        let rows = laws.iter_mut().chain(&mut factors).chain(&mut verdicts).chain(&mut factored);
        rows.chain(&mut functions).chain(&mut sheets).for_each(count);
        return;
    }
    let counts = callgrind::counted(work);
    laws.iter_mut().chain(&mut factored).for_each(agree);
    factors.iter_mut().for_each(same_values);
    println!("Ours beside the Rust: CPU time, medians of interleaved rounds; the machine's load {}", load());
    let mut told = format!("load\t{}\n", load());
    if laws[0].sides[1].is_none() {
        println!("The untouched Rust is LEFT OUT: nalgebra could not be fetched, or --no-untouched.");
    }
    if counts.is_none() {
        println!("The instructions are LEFT OUT: valgrind is not there, or failed.");
    }
    for law in &LAWS {
        println!("{:<15} equal shares of: {}", law.name, law.branches.join("; "));
    }
    let title =
        "A record of a law's pass, factors given, beside the untouched Rust's update, the same less its SVD (factors given), and that with ours' duties";
    table(title, &["ours", "Rust", "less SVD", "fair"], &mut laws, &counts, &mut told);
    table(
        "A record's factors, worked and checked, beside nalgebra's SVD, unchecked",
        &["ours", "nalgebra"],
        &mut factors,
        &counts,
        &mut told,
    );
    table(
        "A record's stress with the verdict by its principal values, checked, beside its stress alone and nalgebra's values of it, unchecked",
        &["ours", "stress", "nalgebra"],
        &mut verdicts,
        &counts,
        &mut told,
    );
    let title = "A record of a law's pass that factors first, beside the untouched Rust's update with its SVD";
    table(title, &["ours", "Rust"], &mut factored, &counts, &mut told);
    table("A call of an elementary function, beside std's", &["ours", "std"], &mut functions, &counts, &mut told);
    let ns = table("A record of a full sheet", &["ours"], &mut sheets, &counts, &mut told);
    for (floats, ns) in [BARE, FLOATS].iter().zip(&ns) {
        println!("read_sheet of {floats} floats a record: {:.0} MB/s", *floats as f64 * 8.0 / ns * 1e3);
    }
    if args.iter().any(|a| a == "--growth") {
        grow(&mut told);
        write_drawn(work, 100);
    }
    println!("\nThe machine's load at the end {}", load());
    std::fs::write(format!("{work}/speed.tsv"), told).unwrap();
}
