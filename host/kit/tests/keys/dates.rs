//! Packed dates: the proved library against the model.

use kit::compare::{pack_date, unpack_date, Tally};
use kit::gen::Rng;

/// The least and the greatest value of each field.
const RANGES: [(u32, u32); 6] = [(1995, 2058), (0, 15), (0, 31), (0, 31), (0, 63), (0, 63)];

/// The limits of a field and their neighbours, and values that a narrower sum would wrap.
fn limits((least, greatest): (u32, u32)) -> Vec<u32> {
    let mut values = vec![least, least + 1, greatest - 1, greatest, greatest + 1, u32::MAX];
    if least > 0 {
        values.extend([0, least - 1, least + (1 << 31)]);
    } else {
        values.extend([1 << 31]);
    }
    values
}

#[test]
fn pack_at_every_limit() {
    let mut tally = Tally::new("pack_date, limits");
    let [years, months, days, hours, minutes, seconds] = RANGES.map(limits);
    for &year in &years {
        for &month in &months {
            for &day in &days {
                for &hour in &hours {
                    for &minute in &minutes {
                        for &second in &seconds {
                            pack_date(&mut tally, [year, month, day, hour, minute, second]);
                        }
                    }
                }
            }
        }
    }
    tally.finish(100_000, &[0, 18]);
}

#[test]
fn pack_one_wrong_field() {
    let mut tally = Tally::new("pack_date, one field at a limit");
    let mut rng = Rng::new(1);
    for field in 0..6 {
        for value in limits(RANGES[field]).into_iter().chain((0..32).map(|bit| 1 << bit)) {
            for _ in 0..500 {
                let mut date = random_date(&mut rng);
                date[field] = value;
                pack_date(&mut tally, date);
            }
        }
    }
    tally.finish(100_000, &[0, 18]);
}

#[test]
fn pack_random() {
    let mut tally = Tally::new("pack_date, random");
    let mut rng = Rng::new(2);
    for _ in 0..150_000 {
        let mut date = random_date(&mut rng);
        if rng.once_in(3) {
            let field = rng.below(6);
            date[field] = rng.u32() >> rng.below(32);
        }
        let answer = pack_date(&mut tally, date);
        if answer.number == 0 {
            assert_eq!(unpack_date(&mut tally, answer.count as u32), date);
        }
    }
    tally.finish(150_000, &[0, 18]);
}

#[test]
fn unpack_and_pack_again() {
    let mut tally = Tally::new("unpack_date");
    let mut rng = Rng::new(3);
    let near = (0..32).flat_map(|bit| [(1u32 << bit) - 1, 1 << bit, !(1 << bit), u32::MAX << bit]);
    let random: Vec<u32> = (0..150_000).map(|_| rng.u32()).collect();
    for packed in near.chain([u32::MAX]).chain(random) {
        let date = unpack_date(&mut tally, packed);
        let answer = pack_date(&mut tally, date);
        assert_eq!((answer.number, answer.count), (0, packed.into()), "{packed:#x}");
    }
    tally.finish(300_000, &[0]);
}

/// A date that packs.
fn random_date(rng: &mut Rng) -> [u32; 6] {
    RANGES.map(|(least, greatest)| least + rng.below((greatest - least + 1) as usize) as u32)
}
