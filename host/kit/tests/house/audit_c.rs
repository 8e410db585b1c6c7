//! The audit called from C.

#[test]
fn c_program() {
    assert_eq!(kit::harness::c_program::run_c_program("use_audit"), "all checks passed\n");
}
