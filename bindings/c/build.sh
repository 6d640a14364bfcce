# Read by bin/test-c, bin/test-script, bin/compare and bin/damage, at the top of the repository. It proves and builds
# the static library where it is older than the crates (some minutes the first time), and tells how a C program is built
# on it and run.
# All else comes from the Rattle kit: its compiler, linker and C library; on a processor other than x86-64 its emulator
# runs the programs.

die() {
    echo "${0##*/}: $*" >&2
    exit 2
}

. tools/library.sh
kit=${RATTLE_HOME:-$(dirname "$(dirname "$(readlink -f "$rt")")")}
tools=$kit/on/$(uname -m)/toolchain
[ -d "$tools" ] || tools=$kit/toolchain
lib=$tools/lib
loader=$lib/ld-linux-x86-64.so.2
emulator=$tools/bin/qemu-x86_64
[ -x "$emulator" ] || emulator=
built=target/c
mkdir -p "$built"

# compile FLAG..: the kit's C compiler, with the header
compile() {
    "$tools/bin/clang" --target=x86_64-unknown-linux-gnu -std=c11 -O1 -fPIE -Wall -Wextra -Werror \
        -nostdinc -isystem bindings/c/stdc -I bindings/include "$@"
}

# build FOLDER NAME: target/c/NAME from FOLDER/NAME.c
build() {
    compile -c "$1/$2.c" -o "$built/$2.o"
    "$tools/bin/ld.lld" -pie --dynamic-linker="$loader" -o "$built/$2" \
        "$lib/Scrt1.o" "$lib/crti.o" "$lib/crtbeginS.o" "$built/$2.o" "$library" \
        "$lib/libc.so.6" "$lib/libc_nonshared.a" "$loader" "$lib/libgcc.a" "$lib/crtendS.o" "$lib/crtn.o"
}

# run NAME ARGUMENTS..: the program that build made
run() {
    program=$1
    shift
    ${emulator:+"$emulator"} "$loader" --library-path "$lib" "$built/$program" "$@"
}

# lend NAME COMMAND..: the command, with the words behind it that run the program NAME
lend() {
    program=$1
    shift
    "$@" ${emulator:+"$emulator"} "$loader" --library-path "$lib" "$built/$program"
}
