//! The list `flat` for the program `replay`: records of each law with the answers that are right. Entries are as in ../../harness/src/replay.rs:
//! the inputs are the model's number, the law's parameters and the record, the outputs the record after it and the two places of the answer.
use crate::draw::Draw;
use crate::law::LAWS;
use std::collections::BTreeMap;

/// The number of `flat_update` by the first law in calls.toml.
const FLAT_UPDATE: u8 = 42;
/// How many entries there are of each set of branches, and of each refusal.
const OF_BRANCHES: u64 = 4;
const OF_REFUSAL: u64 = 2;
const DRAWN: u64 = 100_000;

pub fn write(file: &str, seed: u64) {
    let (mut bytes, mut total, mut sets) = (Vec::new(), 0, 0);
    for model in 0..LAWS.len() {
        let mut draw = Draw(seed.wrapping_mul(0x4000).wrapping_add(model as u64));
        let mut kinds: BTreeMap<(u8, Vec<&'static str>), u64> = BTreeMap::new();
        for _ in 0..DRAWN {
            let (p, r) = draw.edged(model);
            let (_, right, mut taken) = crate::right(model, &p, &r);
            taken.sort();
            let refusal = right.err().unwrap_or(0);
            let kind = kinds.entry((refusal, taken)).or_default();
            if *kind == if refusal == 0 { OF_BRANCHES } else { OF_REFUSAL } {
                continue;
            }
            *kind += 1;
            total += 1;
            // Models from 4 up name the same laws.
            let number = (model + 4 * (total % 2)) as u64;
            bytes.extend([FLAT_UPDATE + model as u8, refusal]);
            bytes.extend(number.to_le_bytes());
            bytes.extend(p.iter().chain(&r).flat_map(|x| x.to_le_bytes()));
            if let Ok((o, answer)) = right {
                bytes.extend(o.iter().flat_map(|x| x.to_le_bytes()));
                bytes.extend(answer.iter().flat_map(|x| x.to_le_bytes()));
            }
        }
        sets += kinds.len();
    }
    bytes.push(255);
    std::fs::write(file, &bytes).expect("the list cannot be written");
    println!("{file}: {total} entries of {sets} kinds, {} bytes", bytes.len());
}
