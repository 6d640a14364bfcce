# The static library, for scripts of bin/ to source at the repository's top; they define `die`. It is proved and built
# where it is older than the crates, which takes some minutes the first time.
. tools/prove.sh
rt=$(command -v rt) || die 'the Rattle kit is not installed: its command rt is not on the path'
library=target/staticlib/libboltmarrow.a
if stale "$library" .; then
    mkdir -p target/staticlib
    (cd crates/boltmarrow_c && rt lib) </dev/null >target/staticlib.log 2>&1 || {
        tail -n 5 target/staticlib.log >&2
        die 'the library is not proved: target/staticlib.log has the whole'
    }
    cp crates/boltmarrow_c/out/libboltmarrow_c.a "$library"
fi
