#!/usr/bin/env bash
# The program seatcalls itself, on call files and on 0, 65,536, 65,537 and far
# more bytes, from a file and through a pipe: it prints what the second
# implementation prints, and says on standard error what it can't read or write.
# Needs what tests/second/check.sh builds.
set -euo pipefail

here="$(cd "$(dirname "${BASH_SOURCE[0]}")" && pwd)"
cd "$here/../.."
out="target/program"
rm -rf "$out" && mkdir -p "$out"

part="program"
. tests/step.sh

# The listing, malformed lines, examples, a cut of 485 rounds, large numbers, 64
# subjects, the last byte missing, a random list, raises.
files="000 017 044 071 077 081 084 085 087 090 114 117"

# The calls of 65,536 bytes, all accepted.
longest="crates/cases/data/088.calls"

# size NAME BYTES
size() {
    test "$(wc -c <"$out/$1.calls")" -eq "$2"
}

inputs() {
    for name in $files; do
        cp "crates/cases/data/$name.calls" "$out/" || return 1
    done
    : >"$out/nothing.calls" && size nothing 0 &&
        cp "$longest" "$out/most.calls" && size most 65536 &&
        { cat "$longest" && printf '5'; } >"$out/more.calls" && size more 65537 &&
        cat "$longest" "$longest" "$longest" "$longest" >"$out/far_more.calls" && size far_more 262144
}

# What the second implementation prints; the program's own lines where document
# 01 has them.
outputs() {
    for input in "$out"/*.calls; do
        target/second/second calls <"$input" >"${input%.calls}.out" || return 1
    done
    for name in nothing more far_more; do
        printf '%s\n' 'refusal first second third' '7 1' | cmp - "$out/$name.out" || return 1
    done
    test "$(grep -c '^0 ' "$out/most.out")" -gt 4000
}

# Each of the inputs is run; a pipe hands them over in parts. Standard error
# stays empty.
runs() {
    local ran=0
    for input in "$out"/*.calls; do
        target/bin/seatcalls <"$input" 2>>"$out/errors" | cmp - "${input%.calls}.out" || return 1
        target/bin/seatcalls < <(cat "$input") 2>>"$out/errors" | cmp - "${input%.calls}.out" || return 1
        ran=$((ran + 1))
    done
    test "$ran" -eq 16 && ! test -s "$out/errors"
}

# The last run wrote this line to standard error.
# said LINE
said() {
    diff <(echo "$1") "$out/said"
}

# The last run printed what an empty input gives.
printed_none() {
    cmp "$out/printed" "$out/nothing.out"
}

# A folder and a closed input can't be read, and count as an empty input.
unreadable() {
    target/bin/seatcalls <"$out" >"$out/printed" 2>"$out/said" &&
        said 'seatcalls: standard input: Is a directory' && printed_none &&
        target/bin/seatcalls <&- >"$out/printed" 2>"$out/said" &&
        said 'seatcalls: standard input: Bad file descriptor' && printed_none
}

# A full disk and a closed output can't be written.
unwritable() {
    target/bin/seatcalls <examples/listing.calls >/dev/full 2>"$out/said" &&
        said 'seatcalls: standard output: No space left on device' &&
        target/bin/seatcalls <examples/listing.calls >&- 2>"$out/said" &&
        said 'seatcalls: standard output: Bad file descriptor'
}

# Two libraries that the program is loaded with, each with one function in the
# place of C's: a read, and a write, that moves nine bytes and then fails.
failing() {
    cat >"$out/failing.c" <<'END' &&
#define _GNU_SOURCE
#include <errno.h>
#include <sys/syscall.h>
#include <unistd.h>
ssize_t CALL(int, OF *, size_t);
ssize_t CALL(int fd, OF *bytes, size_t length)
{
    static int calls;
    if (fd == FAILS && calls++ > 0) {
        errno = EIO;
        return -1;
    }
    return syscall(NUMBER, fd, bytes, fd == FAILS && length > 9 ? 9 : length);
}
END
        gcc -shared -fPIC -DCALL=read -DOF=void -DFAILS=0 -DNUMBER=SYS_read "$out/failing.c" -o "$out/reads.so" &&
        gcc -shared -fPIC -DCALL=write '-DOF=const void' -DFAILS=1 -DNUMBER=SYS_write "$out/failing.c" -o "$out/writes.so" &&
        LD_PRELOAD="$PWD/$out/reads.so" target/bin/seatcalls <examples/listing.calls >"$out/printed" 2>"$out/said" &&
        said 'seatcalls: standard input: Input/output error' && printed_none &&
        LD_PRELOAD="$PWD/$out/writes.so" target/bin/seatcalls <examples/listing.calls >"$out/part" 2>"$out/said" &&
        said 'seatcalls: standard output: Input/output error' &&
        test "$(cat "$out/part")" = 'refusal f'
}

# The program is built again where only it is gone.
again() {
    rm -f target/bin/seatcalls && make -s run >"$out/again" &&
        target/bin/seatcalls <examples/listing.calls >"$out/printed" &&
        diff "$out/printed" <(tail -n "$(wc -l <"$out/printed")" "$out/again")
}

step "build" make -s target/bin/seatcalls
step "build after it was removed" again
step "inputs" inputs
step "what the second implementation prints" outputs
step "seatcalls on call files and on 0, 65,536 and 65,537 bytes" runs
step "an input that can't be read" unreadable
step "an output that can't be written" unwritable
step "a read and a write that fail after the first" failing
