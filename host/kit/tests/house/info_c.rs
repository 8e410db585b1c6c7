//! The StreamerInfo reader called from C.

#[test]
fn c_program() {
    assert_eq!(kit::harness::c_program::run_c_program("use_info"), "all checks passed\n");
}
