# How a command for people ends, for scripts of bin/ that test one to source at the repository's top; they set `name`,
# the command's. Each call is a text for a shell of its own, so what it uses is exported. The program is built here, if
# it has to be.
room=$(mktemp -d) || exit
trap 'rm -rf "$room"' EXIT
trap 'exit 2' HUP INT TERM
root=$(pwd -P)
export name room root
"bin/$name" --help >"$room/use" || exit
: >"$room/nothing"

all=0
wrong=0

# ends STATUS PRINTED SAID COMMAND: how a command ends, PRINTED being a file of $room and SAID what standard error must
# have, nothing at all if it is empty.
ends() {
    all=$((all + 1))
    sh -c "$4" >"$room/out" 2>"$room/err"
    status=$?
    said=yes
    if [ -z "$3" ]; then
        [ ! -s "$room/err" ] || said=no
    else
        grep -qF -e "$3" "$room/err" || said=no
    fi
    if [ "$status" != "$1" ] || [ "$said" = no ] || ! cmp -s "$room/out" "$room/$2"; then
        wrong=$((wrong + 1))
        echo "$name: $4: due are status $1, '$2', and '$3' on standard error; it gives status $status and"
        head -n 4 "$room/out" "$room/err"
    fi
}

# usual TEXT PRINTED: what all commands have in common, on a text of which the answer is PRINTED, with status 0.
usual() {
    file=$1
    export file
    cp "$file" "$room/two words.txt" && cp "$file" "$room/-x.txt" && ln -s "$root/bin/$name" "$room/a link" || exit
    printf 'tokens a eof\nrules start A\nstart: A\nA: b\n' >"$room/wrong.txt"
    printf 'tokens a eof\nrules start A\nstart: A\nA: start\n' >"$room/six.txt"
    printf 'tokens \377\n' >"$room/bytes.txt"
    ends 0 "$2" '' 'bin/$name $file'
    ends 0 "$2" '' 'bin/$name - <$file'
    ends 0 "$2" '' 'bin/$name $file <&-'
    ends 0 "$2" '' 'bin/$name -- $file'
    ends 0 "$2" '' 'bin/$name "$room/two words.txt"'
    ends 0 "$2" '' 'cd "$room" && "$root/bin/$name" -- -x.txt'
    ends 0 "$2" '' 'cd / && "$room/a link" "$root/$file"'
    ends 0 use '' 'bin/$name -h'
    ends 0 use '' 'bin/$name $file --help'
    ends 1 nothing '(refusal 20)' 'bin/$name /dev/null'
    ends 1 nothing '(refusal 21)' 'bin/$name examples/refused/21-check.blk'
    ends 1 nothing '(refusal 6)' 'bin/$name "$room/six.txt"'
    ends 2 nothing "use: bin/$name FILE" 'bin/$name'
    ends 2 nothing "use: bin/$name FILE" 'bin/$name -x'
    ends 2 nothing 'line 4: no token or rule is named b' 'bin/$name "$room/wrong.txt"'
    ends 2 nothing 'byte 7 is not UTF-8' 'bin/$name "$room/bytes.txt"'
    ends 2 nothing 'line 1: a line for a wrong file' 'echo raw blocks 2 | bin/$name -'
    ends 2 nothing "can't be read" 'bin/$name ""'
    ends 2 nothing "can't be read" 'bin/$name "$room/nowhere"'
    ends 2 nothing "can't be read" 'bin/$name /'
    ends 2 nothing "standard input can't be read" 'bin/$name - </'
    ends 2 nothing 'standard input is closed' 'bin/$name - <&-'
    ends 2 nothing "standard output can't be written" 'bin/$name $file >/dev/full'
    ends 2 nothing "standard output can't be written" 'bin/$name --help >/dev/full'
    ends 2 nothing 'standard output is closed' 'bin/$name $file >&-'
    ends 2 nothing 'standard output is closed' 'bin/$name --help >&-'
    ends 2 nothing '' 'bin/$name $file >/dev/full 2>/dev/full'
    ends 0 nothing "standard output can't be written" '{ sleep 0.2; bin/$name $file; } | true'
}

# ended: the last line; the status is 1 where some call ends otherwise.
ended() {
    [ "$wrong" -eq 0 ] || {
        echo "$name: $wrong of $all calls end otherwise"
        exit 1
    }
    echo "$name: $all calls, as due"
}
