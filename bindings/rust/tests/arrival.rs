//! Sheets in parts: every cutting gives what the whole gives; faults stand and are told again (docs/RULES.md, section 7).
use pasoletu::{
    run_sheet, write_sheet, write_sheet_with_determinants, Arrival, Particle, RankinePlasticity, Refusal, SnowPlasticity,
};

fn particles(n: usize) -> Vec<Particle> {
    let sigmas = [1.0, 0.9, 1.02, f64::NAN, 1.3];
    (0..n).map(|k| Particle::stretched([sigmas[k % sigmas.len()], 1.0, 1.0])).collect()
}

fn sheet(n: usize) -> Vec<u8> {
    write_sheet(SnowPlasticity::new(), &particles(n)).unwrap()
}

fn fed<'a>(parts: impl IntoIterator<Item = &'a [u8]>) -> Arrival {
    let mut arrival = Arrival::new();
    for part in parts {
        arrival.feed(part).unwrap();
    }
    arrival
}

/// Bits of particles and answers: a NaN is none of its own equals.
fn same(arrival: &mut Arrival, whole: &[u8]) {
    let (ours, all) = (arrival.finish().unwrap(), run_sheet(whole).unwrap());
    let bits = |p: &[Particle]| p.iter().flat_map(|p| *p.floats()).map(f64::to_bits).collect::<Vec<_>>();
    assert_eq!(bits(&ours.particles), bits(&all.particles));
    assert_eq!(format!("{:?}", ours.passed.outcomes).replace("Arrival::ran", "run_sheet"), format!("{:?}", all.passed.outcomes));
    assert_eq!((ours.model, ours.determinants), (all.model, all.determinants));
    assert_eq!(
        (ours.passed.untouched, ours.passed.stored, ours.passed.refused),
        (all.passed.untouched, all.passed.stored, all.passed.refused)
    );
}

#[test]
fn every_cutting_into_two() {
    for whole in [sheet(2), write_sheet_with_determinants(SnowPlasticity::new(), &particles(2)).unwrap(), sheet(0)] {
        for k in 0..=whole.len() {
            same(&mut fed([&whole[..k], &whole[k..]]), &whole);
        }
    }
}

#[test]
fn one_byte_at_a_time_with_empty_parts_between() {
    let whole = write_sheet(RankinePlasticity::new(1.0e6, 0.2, 1.0e3, 1.0).unwrap(), &particles(6)).unwrap();
    let mut arrival = Arrival::new();
    for b in &whole {
        arrival.feed(&[]).unwrap();
        arrival.feed(&[*b]).unwrap();
    }
    same(&mut arrival, &whole);
}

#[test]
fn fifteen_after_the_end() {
    let whole = sheet(3);
    let mut arrival = fed(whole.chunks(50));
    arrival.finish().unwrap();
    assert_eq!(arrival.feed(&[]).unwrap_err().number, Refusal::AFTER_END);
    assert_eq!(arrival.feed(&whole).unwrap_err().number, Refusal::AFTER_END);
    assert_eq!(arrival.finish().unwrap_err().number, Refusal::AFTER_END);
    assert_eq!((arrival.complete(), arrival.count(), arrival.particles().len()), (3, Some(3), 3));
}

#[test]
fn a_shortage_is_told_only_at_the_end_and_then_again() {
    let whole = sheet(3);
    for k in 0..whole.len() {
        let mut arrival = fed([&whole[..k]]);
        assert_eq!(arrival.finish().unwrap_err().number, Refusal::ENDS_EARLY);
        assert_eq!(arrival.feed(&whole[k..]).unwrap_err().number, Refusal::ENDS_EARLY);
        assert_eq!(arrival.finish().unwrap_err().number, Refusal::ENDS_EARLY);
        assert_eq!(arrival.complete(), k.saturating_sub(26) / 288);
    }
}

#[test]
fn records_before_a_fault_stand() {
    let whole = sheet(4);
    let mut arrival = fed([&whole[..]]);
    for _ in 0..3 {
        assert_eq!(arrival.feed(&[0]).unwrap_err().number, Refusal::TOO_MANY);
    }
    assert_eq!(arrival.finish().unwrap_err().number, Refusal::TOO_MANY);
    let all = run_sheet(&whole).unwrap();
    let bits = |p: &[Particle]| p.iter().flat_map(|p| *p.floats()).map(f64::to_bits).collect::<Vec<_>>();
    assert_eq!(bits(arrival.particles()), bits(&all.particles));
}

#[cfg(feature = "std")]
#[test]
fn a_line_is_copied_into_it() {
    let whole = sheet(5);
    let mut arrival = Arrival::new();
    std::io::copy(&mut &whole[..], &mut arrival).unwrap();
    same(&mut arrival, &whole);
    assert!(std::io::Write::write(&mut arrival, &[0]).is_err());
}
