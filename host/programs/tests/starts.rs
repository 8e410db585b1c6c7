//! Each program starts and says what it is. With a test here cargo builds the programs before it runs any test of the
//! packages, and the kit finds them.

use std::process::Command;

#[test]
fn each_says_how_it_is_used() {
    for (name, program) in
        [("rootaudit", env!("CARGO_BIN_EXE_rootaudit")), ("rootkeys", env!("CARGO_BIN_EXE_rootkeys"))]
    {
        let output = Command::new(program).arg("--help").output().unwrap();
        let text = String::from_utf8(output.stdout).unwrap();
        assert!(output.status.success() && text.starts_with(&format!("usage: {name} ")), "{text}");
    }
}
