# Proving with a word on how far it is, for scripts of bin/ to source at the repository's top; they define `say`.

# stale FILE TOP: whether FILE, made from the crates below TOP, is missing or older than one of their files
stale() {
    [ ! -e "$1" ] || [ -n "$(find "$2/crates" "$2/crates.txt" -name out -prune -o -type f -newer "$1" -print |
        head -n 1)" ]
}

# below NAME: the crates that NAME stands on, and itself, lowest first
below() {
    awk -v name="$1" '
        function walk(crate,    under, n, k) {
            if (crate in seen) return
            seen[crate] = 1
            n = split(on[crate], under, " ")
            for (k = 1; k <= n; k++) if (under[k] in on) walk(under[k])
            print crate
        }
        { sub(/#.*/, "") }
        /:/ { crate = $1; sub(/:.*/, "", crate); deps = $0; sub(/^[^:]*:/, "", deps); on[crate] = deps }
        END { walk(name) }' crates.txt
}

# prove NAME: proves these crates, with target/NAME.log for what `rt` prints. Its last lines are said where one fails.
prove() {
    mkdir -p target
    : >"target/$1.log"
    all=$(below "$1" | wc -l)
    at=0
    for crate in $(below "$1"); do
        at=$((at + 1))
        say "proving $at of $((all)): $crate"
        (cd "crates/$crate" && rt check) </dev/null >>"target/$1.log" 2>&1 || {
            tail -n 5 "target/$1.log" >&2
            exit 1
        }
    done
}
