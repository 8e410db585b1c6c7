# For `run`, `run-docs`, `install` and `run-tests`, which set `root`: proves and builds the static library where it is not
# there or a file of the crates is newer; builds programs over it.
library=$root/crates/capi/out/libcapi.a
programs=$root/host/target/release
# The programs that are installed.
installed="rootaudit rootkeys"

# Whether what was built is not there, or is older than a file of the crates.
is_old() {
    [ ! -e "$1" ] || [ -n "$(find "$root/crates.txt" "$root/crates" -name out -prune -o -type f -newer "$1" -print)" ]
}

build_library() {
    if is_old "$library"; then
        echo "proving and building the library, which takes minutes the first time" >&2
        log=$(mktemp) || exit 2
        trap 'rm -f "$log"' EXIT
        if ! (cd "$root/crates/capi" && rt lib) >"$log" 2>&1; then
            cat "$log" >&2
            exit 2
        fi
        rm -f "$log"
        trap - EXIT
    fi
    unset ROOTMAP_LIB_DIR
}

# What cargo says goes to standard error. The first argument is the folder of what is built; options of cargo follow.
build_in() {
    folder=$1
    shift
    build_library
    cargo build --release --offline --quiet --manifest-path "$root/host/Cargo.toml" --target-dir "$folder" "$@" >&2 ||
        exit 2
}

build_program() {
    build_in "$root/host/target" --bin "$1"
}

# Programs that need no library where they run. With a target named, the flags are not those of build scripts; in a
# folder of its own, what is built otherwise stays.
build_static() {
    target=x86_64-unknown-linux-gnu
    programs=$root/host/target/static/$target/release
    unset CARGO_ENCODED_RUSTFLAGS
    export RUSTFLAGS="${RUSTFLAGS-} -C target-feature=+crt-static"
    build_in "$root/host/target/static" --target "$target" "$@"
}
