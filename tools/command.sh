# Runs a subcommand of the program of bindings/rust/command with this script's words, for scripts of bin/ to source;
# they set `name`, the subcommand, and `root`, the repository's top. The program stands on the proved library. Both are
# built first where they are older than their sources; the library takes some minutes the first time.
say() {
    printf '%s: %s\n' "$name" "$*" >&2 || true
}

die() {
    say "$@"
    exit 2
}

# A program in Rust takes a closed standard input or output for an empty one.
{ true 3>&1; } 2>/dev/null || die 'standard output is closed'
for word in "$@"; do
    if [ "$word" = - ]; then
        { true 3<&0; } 2>/dev/null || die 'standard input is closed'
    fi
done

command=$root/target/rust/release/boltmarrow
library=$root/target/staticlib/libboltmarrow.a
. "$root/tools/prove.sh"
if stale "$command" "$root" || [ -n "$(find "$root/bindings/rust" "$library" -type f -newer "$command" 2>&1 |
    head -n 1)" ]; then
    [ "$(uname -m)" = x86_64 ] || die "the library is for x86-64, and this is $(uname -m)"
    command -v cargo >/dev/null 2>&1 || die 'Rust is not installed: its command cargo is not on the path'
    if stale "$library" "$root"; then
        say 'proving and building the library, once, which takes some minutes'
    fi
    (
        cd "$root" && . tools/library.sh &&
            BOLTMARROW_LIB=$root/target/staticlib CARGO_TARGET_DIR=$root/target/rust \
                cargo build --release --offline --quiet --manifest-path bindings/rust/command/Cargo.toml &&
            touch "$command"
    ) </dev/null >&2 || die 'the program is not built'
fi
exec "$command" "$name" "$@"
