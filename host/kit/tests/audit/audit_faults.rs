//! The audit of files that break one rule, or two: which refusal it gives, and which comes first.

use kit::compare::audit::{audit, audit_by_rules, audit_with_room};
use kit::compare::Tally;
use kit::gen::faults::{self, Fault, Target};
use kit::gen::files::{plan, Built, Plan, LARGE, RICH};
use kit::gen::Rng;
use second::Answer;

/// The numbers that the audit can answer with room enough.
const NUMBERS: [u64; 14] = [0, 1, 2, 3, 4, 5, 6, 8, 9, 10, 11, 12, 13, 14];

/// Fails unless the answer is the one that a fault brings by itself.
fn expect(answer: Answer, pieces: usize, fault: &Fault, built: &Built, target: &Target) {
    let expected = match fault.number {
        0 => Answer::success(pieces as u64),
        number => Answer::refusal(number, (fault.place)(built, target)),
    };
    assert_eq!(answer, expected, "{} {target:?}", fault.name);
}

/// A plan with narrow offsets throughout, with wide ones, and as it is, with some of each.
fn in_turn(round: usize, plan: Plan) -> Plan {
    match round % 3 {
        0 => plan.of_width(false),
        1 => plan.of_width(true),
        _ => plan,
    }
}

#[test]
fn each_rule_alone() {
    let mut tally = Tally::new("audit, one rule broken");
    let mut rng = Rng::new(100);
    for round in 0..150 {
        let plan = in_turn(round, plan(&mut rng, RICH));
        for fault in faults::all() {
            let target = Target::pick(&mut rng, &plan);
            let built = faults::build(&mut rng, &plan, &[(&fault, target)]);
            let (answer, rows) = audit_by_rules(&mut tally, &built.bytes);
            expect(answer, rows.len(), &fault, &built, &target);
        }
    }
    tally.finish(20_000, &NUMBERS);
}

#[test]
fn each_rule_alone_in_large_files() {
    let mut tally = Tally::new("audit, one rule broken somewhere in a large file");
    let mut rng = Rng::new(103);
    for round in 0..3 {
        let plan = in_turn(round, plan(&mut rng, LARGE));
        for fault in faults::all() {
            let target = Target::pick(&mut rng, &plan);
            let built = faults::build(&mut rng, &plan, &[(&fault, target)]);
            let (answer, rows) = audit_with_room(&mut tally, &built.bytes, 0);
            expect(answer, rows.len(), &fault, &built, &target);
        }
    }
    tally.finish(400, &NUMBERS);
}

/// The number that two faults bring together, if it is the lower one wherever they stand. Faults in
/// the chain and in directories come by place, and equal ones may undo each other.
fn lower_number(one: &Fault, two: &Fault) -> Option<u64> {
    let (low, high) = (one.number.min(two.number), one.number.max(two.number));
    let by_place = low == high || low > 10 || (low, high) == (5, 6);
    let alone = low == 0 || one.rough || two.rough;
    (!by_place && !alone).then_some(low)
}

#[test]
fn any_two_rules() {
    let mut tally = Tally::new("audit, two rules broken");
    let mut rng = Rng::new(101);
    let faults = faults::all();
    for round in 0..6 {
        for one in &faults {
            for two in &faults {
                let plan = in_turn(round, plan(&mut rng, RICH));
                let first = Target::pick(&mut rng, &plan);
                // The same pieces, or others.
                let second = if round < 3 { first } else { Target::pick(&mut rng, &plan) };
                let built = faults::build(&mut rng, &plan, &[(one, first), (two, second)]);
                let (answer, _) = audit_by_rules(&mut tally, &built.bytes);
                if let Some(number) = lower_number(one, two) {
                    assert_eq!(answer.number, number, "{} and {}", one.name, two.name);
                }
            }
        }
    }
    tally.finish(120_000, &NUMBERS);
}

#[test]
fn three_rules_and_any_room() {
    let mut tally = Tally::new("audit, up to three rules broken, any room");
    let mut rng = Rng::new(102);
    let faults = faults::all();
    for _ in 0..40_000 {
        let plan = plan(&mut rng, RICH);
        let chosen: Vec<(&Fault, Target)> =
            (0..rng.below(4)).map(|_| (&faults[rng.below(faults.len())], Target::pick(&mut rng, &plan))).collect();
        let built = faults::build(&mut rng, &plan, &chosen);
        let lengths = [0; 3].map(|_| plan.items.len() + rng.below(8) - rng.pick(&[0, 1, 2, 9]).min(rng.below(9)));
        audit(&mut tally, &built.bytes, lengths);
    }
    tally.finish(40_000, &[0, 1, 2, 3, 4, 5, 6, 7, 8, 9, 10, 11, 12, 13, 14]);
}
