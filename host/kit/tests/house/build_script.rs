//! The build script by itself: commit and toolchain for `rootaudit --version`, and `unknown` where there is none.

use kit::harness::command::folder;
use kit::harness::folder::repository;
use std::fs;
use std::os::unix::fs::PermissionsExt;
use std::path::PathBuf;
use std::process::Command;

/// A folder with the script, a package whose library is there, and a toolchain.
struct Place(PathBuf);

impl Place {
    fn new(name: &str) -> Self {
        let place = Place(folder(name));
        for folder in ["bin", "repo/host/programs/src", "repo/crates/capi/out"] {
            fs::create_dir_all(place.0.join(folder)).unwrap();
        }
        fs::write(place.0.join("repo/crates/capi/out/libcapi.a"), "").unwrap();
        fs::write(place.0.join("repo/.gitignore"), "/crates/*/out/\n").unwrap();
        fs::write(place.0.join("repo/host/programs/src/lib.rs"), "").unwrap();
        let rt = place.0.join("bin/rt");
        fs::write(&rt, "#!/bin/sh\necho \"kit $1\"\necho more\n").unwrap();
        fs::set_permissions(&rt, fs::Permissions::from_mode(0o755)).unwrap();
        let source = repository().join("host/programs/build.rs");
        let script = place.0.join("script");
        assert!(Command::new("rustc")
            .args(["--edition", "2021"])
            .arg(source)
            .arg("-o")
            .arg(script)
            .status()
            .unwrap()
            .success());
        place
    }

    /// Commit and toolchain that the script gives, with these folders of programs.
    fn said(&self, path: &str, library: Option<&str>) -> [String; 2] {
        let mut script = Command::new(self.0.join("script"));
        script
            .env("CARGO_MANIFEST_DIR", self.0.join("repo/host/programs"))
            .env("PATH", path)
            .env_remove("ROOTMAP_LIB_DIR");
        if let Some(library) = library {
            script.env("ROOTMAP_LIB_DIR", library);
        }
        let output = script.output().unwrap();
        assert!(output.status.success());
        let text = String::from_utf8(output.stdout).unwrap();
        ["COMMIT", "TOOLCHAIN"].map(|name| {
            let label = format!("cargo::rustc-env=ROOTAUDIT_{name}=");
            text.lines().find_map(|line| line.strip_prefix(&label)).unwrap().to_owned()
        })
    }

    fn git(&self, folder: &str, arguments: &[&str]) -> String {
        let identity = ["-c", "user.name=a", "-c", "user.email=a@example.org"];
        let mut git = Command::new("git");
        git.args(identity).args(arguments).current_dir(self.0.join(folder)).env_remove("GIT_DIR");
        let output = git.env_remove("GIT_WORK_TREE").env_remove("GIT_INDEX_FILE").output().unwrap();
        assert!(output.status.success(), "{arguments:?}");
        String::from_utf8(output.stdout).unwrap().trim().to_owned()
    }
}

#[test]
fn commit_and_toolchain() {
    if !kit::harness::command::is_there("git") {
        return;
    }
    let place = Place::new("build_script");
    let all = format!("{}:{}", place.0.join("bin").display(), std::env::var("PATH").unwrap());
    // No git and no toolchain; then no checkout.
    assert_eq!(place.said("/nothing", None), ["unknown"; 2]);
    place.git("", &["init", "-q"]);
    assert_eq!(place.said(&all, None), ["unknown", "kit version"], "the checkout around it is another's");
    place.git("repo", &["init", "-q"]);
    assert_eq!(place.said(&all, None)[0], "unknown", "no commit yet");
    place.git("repo", &["add", "."]);
    place.git("repo", &["commit", "-q", "-m", "first"]);
    let commit = place.git("repo", &["rev-parse", "HEAD"]);
    assert_eq!(place.said(&all, None), [commit.as_str(), "kit version"]);
    let library = place.0.join("repo/crates/capi/out");
    assert_eq!(place.said(&all, library.to_str())[1], "unknown", "a library from elsewhere");
    fs::write(place.0.join("repo/host/programs/src/lib.rs"), "// changed\n").unwrap();
    assert_eq!(place.said(&all, None)[0], format!("{commit}, with changes that are not committed"));
    place.git("repo", &["checkout", "-q", "."]);
    fs::write(place.0.join("repo/host/programs/src/new.rs"), "").unwrap();
    assert_eq!(place.said(&all, None)[0], format!("{commit}, with changes that are not committed"));
}
