//! Where the tests find the programs and the proved library.

use std::env;
use std::path::PathBuf;

fn main() {
    let archive = env::var("DEP_CAPI_ARCHIVE").expect("the package of the programs tells where the library stands");
    println!("cargo::rustc-env=ROOTMAP_ARCHIVE={archive}");
    // The folder of this profile, in which cargo puts programs: this script's own is build/NAME/out in it.
    let out = PathBuf::from(env::var_os("OUT_DIR").expect("cargo sets OUT_DIR"));
    let built = out.ancestors().nth(3).expect("a folder for each profile");
    println!("cargo::rustc-env=PROGRAMS={}", built.display());
    println!("cargo::rerun-if-changed=build.rs");
}
