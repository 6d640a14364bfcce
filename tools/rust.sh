# Rust, for scripts of bin/ to source at the repository's top; they define `die`. What is missing of it is installed by
# the names of Debian's packages.
missing=
command -v rustc >/dev/null 2>&1 || missing="$missing rustc"
command -v cargo >/dev/null 2>&1 || missing="$missing cargo"
command -v cc >/dev/null 2>&1 || missing="$missing gcc libc6-dev"
if [ -n "$missing" ]; then
    command -v apt-get >/dev/null 2>&1 || die "there is no$missing, and no apt-get to install it"
    mkdir -p target
    # shellcheck disable=SC2086 # the packages are words
    { apt-get update && apt-get install -y --no-install-recommends $missing; } \
        </dev/null >target/rust-install.log 2>&1 || {
        tail -n 5 target/rust-install.log >&2
        die "not installed:$missing: target/rust-install.log has the whole"
    }
fi

# bindings OUT CRATES FLAG..: builds bindings/rust and bindings/rust/cfgrammar into the folder OUT with these flags of
# rustc, over the cfgrammar that the folder CRATES has; after tools/library.sh.
bindings() {
    binding_out=$1
    binding_crates=$2
    shift 2
    binding rust/src/lib.rs boltmarrow -l static=boltmarrow "$@"
    binding rust/cfgrammar/src/lib.rs boltmarrow_cfgrammar \
        --extern boltmarrow --extern cfgrammar --extern num_traits "$@"
}

binding() {
    binding_file=$1
    binding_name=$2
    shift 2
    rustc --edition 2021 -D warnings --crate-type rlib --crate-name "$binding_name" "bindings/$binding_file" \
        -L "$binding_out" -L "$binding_crates" -L native=target/staticlib --out-dir "$binding_out" "$@"
}
