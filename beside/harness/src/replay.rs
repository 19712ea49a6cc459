//! The fixed list for the program `replay`: calls with the answers of build 2. An entry is the call's number in a byte, the refusal's number
//! or 0 in a byte, the inputs as 8 bytes each, low byte first, and after a 0 the outputs likewise: of an update the record after it and the two
//! places of the answer. A byte 255 ends the list.
use crate::branches;
use crate::calls;
use crate::draw::Draw;
use crate::inside::{self, Answer};
use crate::listed;
use crate::vectors;
use std::collections::BTreeMap;

/// The list as it grows.
#[derive(Default)]
pub struct List {
    bytes: Vec<u8>,
    total: u64,
}

impl List {
    pub fn entry(&mut self, n: usize, inputs: &[u64], a: &Answer) {
        self.total += 1;
        self.bytes.extend([n as u8, a.status]);
        self.bytes.extend(inputs.iter().flat_map(|x| x.to_le_bytes()));
        if a.status == 0 {
            self.bytes.extend(a.out.iter().flat_map(|x| x.to_le_bytes()));
        }
    }
}

pub fn write(file: &str, seed: u64) {
    let mut list = List::default();
    let mut classes = 0;
    for n in (0..calls::CALLS.len()).filter(|n| !calls::is_retired(*n)) {
        // A few of each kind: the refusal, or the branches taken together.
        let mut kinds: BTreeMap<(u8, Vec<&'static str>), u64> = BTreeMap::new();
        let mut d = Draw(seed.wrapping_mul(0x4000).wrapping_add(n as u64));
        for _ in 0..40_000 {
            let i = d.inputs(n);
            let a = if calls::is_elementary(n) { crate::ours::call(n, &i) } else { inside::expected(n, &i) };
            let nan = a.status == 0 && !a.out.iter().all(|x| inside::finite(*x));
            // A verdict that hangs on a value's last digits is not the Rust's to say.
            let near = calls::is_judged(n) && a.status == 0 && inside::near_a_limit(n, &i, 1e-6);
            if nan || near || listed::by_document(n, &i, &a).is_some() {
                continue;
            }
            let a = if calls::is_elementary(n) { a } else { inside::expected(n, &i) };
            let mut names = Vec::new();
            if a.status == 0 {
                branches::taken(n, &i, &a, &mut names);
                names.sort();
            }
            let most = if names.is_empty() && a.status == 0 { 40 } else { 8 };
            let c = kinds.entry((a.status, names)).or_default();
            if *c >= most {
                continue;
            }
            *c += 1;
            list.entry(n, &i, &a);
        }
        classes += kinds.len();
    }
    let numbered = list.total;
    vectors::write(&mut list, seed);
    list.bytes.push(255);
    std::fs::write(file, &list.bytes).expect("the list cannot be written");
    let List { bytes, total } = list;
    println!("{file}: {numbered} entries of {classes} kinds and {} of the pass with failure and of records, {} bytes", total - numbered, bytes.len());
}
