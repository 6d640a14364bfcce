# The Rust crate with stand-ins for what is missing, for scripts to source at the repository's top.

# crate SRC OUT VOB FLAG..: builds the crate, whose files SRC/src/lib has, into the folder OUT with these flags of rustc
# and with the stand-in VOB for the crate vob. The crate's files are linked, as they are, into OUT/cfgrammar beside the
# other stand-ins. Then `rust FILE FLAG..` builds what uses it, with the same flags.
crate() {
    if [ ! -f "$1/src/lib/yacc/grammar.rs" ]; then
        echo "no crate at $1: src/lib/yacc/grammar.rs is missing" >&2
        exit 2
    fi
    src=$(CDPATH= cd "$1" && pwd)/src/lib
    out=$2
    vob=$3
    shift 3
    flags=$*
    mkdir -p "$out/cfgrammar/yacc"
    for folder in . yacc; do
        ln -sf "$(pwd)/tools/oracle/lib/$folder"/*.rs "$src/$folder"/*.rs "$out/cfgrammar/$folder/"
    done
    for file in "$vob" tools/oracle/crates/num_traits.rs tools/oracle/crates/indexmap.rs \
        tools/oracle/crates/proc_macro2.rs tools/oracle/crates/quote.rs; do
        rust "$file" --crate-type rlib
    done
    rust "$out/cfgrammar/mod.rs" --crate-type rlib --crate-name cfgrammar --cap-lints allow \
        --extern vob --extern num_traits --extern indexmap --extern proc_macro2 --extern quote
}

# shellcheck disable=SC2086 # the flags are words
rust() {
    rustc --edition 2024 $flags -L "$out" --out-dir "$out" "$@"
}
