//! Files written by ROOT, audited by rootaudit and by the second program.

use kit::compare::told;
use kit::harness::root_folder::{expect_known, root_files};
use programs::rootaudit::verdict::{examine, Tables, Verdict};
use programs::rootaudit::{audit_file, library};
use second::audit::{audit, Row};
use second::Answer;
use std::fs;

fn rows(tables: &Tables) -> Vec<Row> {
    let columns = tables.start.iter().zip(&tables.part).zip(&tables.owner);
    columns.map(|((&start, &part), &owner)| Row { start, part, owner }).collect()
}

#[test]
fn both_agree() {
    for path in root_files().unwrap_or_default() {
        let file = fs::read(&path).unwrap();
        let found = match audit_file(path.as_os_str(), &library) {
            Verdict::Passed(tables) => {
                assert_eq!(tables.end, file.len());
                (Answer::success(tables.start.len() as u64), rows(&tables))
            }
            Verdict::Refused(refused) => (told(refused.answer), Vec::new()),
            Verdict::Failed(why) => panic!("{}: {why}", path.display()),
        };
        assert_eq!(found, audit(&file, file.len()), "{}", path.display());
        expect_known(&path, found.0);
    }
}

/// With bytes behind END each is refused, and what it would be without them is told.
#[test]
fn with_a_tail() {
    for path in root_files().unwrap_or_default() {
        let file = fs::read(&path).unwrap();
        let (answer, _) = audit(&file, file.len());
        let verdict = examine(&[&file[..], &[0; 357]].concat(), &library);
        let Verdict::Refused(refused) = verdict else { panic!("{}: {verdict:?}", path.display()) };
        // A file that is cut has less than END bytes with the tail too.
        let first = (answer.number == 0).then_some((file.len() as u64, answer));
        let told_first = refused.first_end.map(|first| (first.bytes, told(first.answer)));
        assert_eq!((told(refused.answer), told_first), (Answer::refusal(4, 0), first), "{}", path.display());
    }
}
