//! Copies of keys that are longer than their sum, as those of baskets are.

use kit::compare::audit::audit_by_rules;
use kit::compare::Tally;
use kit::gen::files::one_root_plan;
use second::{number, Answer};

/// The object of one.root has a key of `more` bytes above its sum, and the list copies them all: what it copies is
/// not plain, though it equals the record.
#[test]
fn whole_copies_of_baskets() {
    let mut tally = Tally::new("audit, copies of whole keys that are not plain");
    let [object, list] = [1, 2];
    for more in 0..40 {
        let mut plan = one_root_plan();
        plan.items[object].more = more;
        plan.items[list].data = vec![0x2e; more];
        let built = plan.build();
        let [start, copy] = [built.sites[object].start, built.sites[list].copies[0]];
        let keylen = built.sites[object].keylen;
        assert_eq!(built.bytes[start..start + keylen], built.bytes[copy..copy + keylen]);
        let (answer, _) = audit_by_rules(&mut tally, &built.bytes);
        let refused = Answer::refusal(number::KEYS, built.start(list));
        assert_eq!(answer, if more == 0 { Answer::success(5) } else { refused }, "{more} bytes above the sum");
    }
    tally.finish(40, &[number::SUCCESS, number::KEYS]);
}
