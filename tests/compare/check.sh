#!/usr/bin/env bash
# The C side: the archive, the header, a short comparison with the second
# implementation on fixed random calls, its self test, the example hosts, the
# host in README.md, the stack of every call, a build of the measurement, what
# is installed, and the tar file.
set -euo pipefail

here="$(cd "$(dirname "${BASH_SOURCE[0]}")" && pwd)"
cd "$here/../.."
out="target/compare"
mkdir -p "$out"

part="compare"
. tests/step.sh

strict=(-Wall -Wextra -Wpedantic -Wconversion -Werror)
archive="target/staticlib/libseatreg.a"
version="$(sed -n 's/^#define SEATREG_VERSION "\(.*\)"$/\1/p' include/seatreg.h)"

# The archive has the header's functions and no others, asks for nothing but C's
# memcpy and memset, and has no data that is written: a call keeps nothing.
alone() {
    nm "$archive" >"$out/symbols" &&
        sed -nE 's/^SEATREG_CALL uint32_t (seatreg_[a-z_]+)\(.*/\1/p' include/seatreg.h | sort >"$out/functions" &&
        sed -nE 's/.* T (seatreg_.*)/\1/p' "$out/symbols" | sort | diff "$out/functions" - &&
        test "$(wc -l <"$out/functions")" -eq 21 &&
        ! grep -E ' [bBdDsSgGcC] ' "$out/symbols" &&
        ! grep ' U ' "$out/symbols" | grep -vwE 'memcpy|memset'
}

# The refusals in order and the constants are the second implementation's, the
# names of the refusals and their order are those of the code.
header() {
    awk '/Refusals in order:/ { sub(/.*: /, ""); sub(/\..*/, ""); gsub(/,/, ""); order = $0 }
         /^SEATREG_CALL uint32_t seatreg_/ { sub(/.* seatreg_/, ""); sub(/\(.*/, ""); print $0 ": " order; order = "none" }
         /^#define SEATREG_(VERSION|VERSION_NUMBER|CALL) / { next }
         /^#define SEATREG_[A-Z_]+ / { sub(/SEATREG_/, ""); constants = constants $2 " " $3 "\n" }
         END { printf "%s", constants }' include/seatreg.h >"$out/header" &&
        "$out/compare" header | diff - "$out/header" &&
        sed -nE 's/^    ([A-Z][A-Za-z]+) = ([0-9]+),$/\1 \2/p' crates/rules/src/refusal.rt |
            sed -E 's/([a-z])([A-Z])/\1_\2/g; s/.*/\U&/' >"$out/refusals" &&
        sed -nE '/ACCEPTED/d; s/^    SEATREG_([A-Z_]+) = ([0-9]+).*/\1 \2/p' include/seatreg.h | diff "$out/refusals" - &&
        test -s "$out/refusals"
}

# The text and the number of the version agree; README.md and CHANGELOG.md have
# it too.
version() {
    local first second third
    IFS=. read -r first second third <<<"$version" &&
        grep -qx "#define SEATREG_VERSION_NUMBER $((first * 10000 + second * 100 + third))" include/seatreg.h &&
        grep -qF "\"$version\"" README.md &&
        grep -qF "$((first * 10000 + second * 100 + third))" README.md &&
        grep -qF "seatreg-$version-x86-64-linux.tar" README.md &&
        grep -m 1 '^## ' CHANGELOG.md | grep -qx "## $version"
}

# Every target that is a command is in what `make help` prints.
helped() {
    make -s help >"$out/help" || return 1
    for target in $(sed -n 's/^\.PHONY: //p' Makefile); do
        grep -E "^make \[?$target\>" "$out/help" || return 1
    done
}

# The refusals of README.md's table, with their names and texts, are the header's,
# and are in its order.
texts() {
    cat >"$out/texts.c" <<'END' &&
#include <stdio.h>
#include <string.h>
#include "seatreg.h"
int main(void)
{
    for (uint32_t n = 0; n <= SEATREG_NO_KIND; n++)
        printf("%u %s\n", (unsigned)n, seatreg_refusal_text(n));
    return strcmp(seatreg_refusal_text(SEATREG_NO_KIND + 1), "no such refusal") != 0 ||
           strcmp(seatreg_refusal_text(UINT32_MAX), "no such refusal") != 0;
}
END
        gcc -std=c99 "${strict[@]}" -Iinclude "$out/texts.c" -o "$out/texts" && "$out/texts" >"$out/header.texts" &&
        sed -nE 's/^    (SEATREG_[A-Z_]+) = ([0-9]+).*/\2 \1/p' include/seatreg.h >"$out/header.names" &&
        awk -F ' *[|] *' -v names="$out/readme.names" -v texts="$out/readme.texts" '
            $2 ~ /^[0-9]+$/ { gsub(/[`*]/, ""); print $2, $3 > names; print $2, $4 > texts }' README.md &&
        diff "$out/header.names" "$out/readme.names" &&
        sort -n "$out/readme.texts" | diff "$out/header.texts" -
}

# A translation unit whose one function, USER, calls all that the header has.
user() {
    cat <<'END'
#include "seatreg.h"
#include "seatreg.h"
#define NO_TEXT (const uint8_t *)"", 0
extern uint32_t USER(uint8_t *block, uint8_t *answers);
uint32_t USER(uint8_t *block, uint8_t *answers)
{
    static uint8_t order[SEATREG_ORDER_SIZE], text[SEATREG_TEXT_SIZE], old[SEATREG_OLD_BLOCK_SIZE], slip[SEATREG_SLIP_SIZE];
    uint32_t sum = seatreg_open(block, SEATREG_BLOCK_SIZE, answers, SEATREG_ANSWERS_SIZE);
    sum += seatreg_enrol(block, SEATREG_BLOCK_SIZE, 1, answers, SEATREG_ANSWERS_SIZE);
    sum += seatreg_grant(block, SEATREG_BLOCK_SIZE, SEATREG_OWNER, 1, 9, 1, 2, answers, SEATREG_ANSWERS_SIZE);
    sum += seatreg_reach(block, SEATREG_BLOCK_SIZE, SEATREG_OWNER, 1, answers, SEATREG_ANSWERS_SIZE);
    sum += seatreg_use(block, SEATREG_BLOCK_SIZE, 1, answers, SEATREG_ANSWERS_SIZE);
    sum += seatreg_downgrade(block, SEATREG_BLOCK_SIZE, SEATREG_OWNER, SEATREG_OWNER, 1, 8, answers, SEATREG_ANSWERS_SIZE);
    struct seatreg_delegation d = seatreg_delegation_at(block, 0);
    if (seatreg_subjects(block) != 2 || seatreg_delegations(block) != 1 || seatreg_marks(block, 1) != 1)
        return 1;
    if (d.giver != 0 || d.receiver != 1 || d.weight != 8 || d.need != 1 || d.bar != 2 || d.kind != SEATREG_ORDINARY)
        return 2;
    if (seatreg_grant_kind(block, SEATREG_BLOCK_SIZE, SEATREG_OWNER, 1, 9, 1, 2, SEATREG_PASS_ONLY, NO_TEXT, answers, SEATREG_ANSWERS_SIZE) != SEATREG_PAIR_STANDS)
        return 11;
    sum += seatreg_revoke(block, SEATREG_BLOCK_SIZE, SEATREG_OWNER, SEATREG_OWNER, 1, answers, SEATREG_ANSWERS_SIZE);
    sum += seatreg_grant_kind(block, SEATREG_BLOCK_SIZE, SEATREG_OWNER, 1, 9, 1, 2, SEATREG_PASS_ONLY, NO_TEXT, answers, SEATREG_ANSWERS_SIZE);
    sum += seatreg_use(block, SEATREG_BLOCK_SIZE, 1, answers, SEATREG_ANSWERS_SIZE);
    if (seatreg_answer(answers, 0) != 0 || seatreg_delegation_at(block, 0).kind != SEATREG_PASS_ONLY)
        return 12;
    sum += seatreg_revoke(block, SEATREG_BLOCK_SIZE, SEATREG_OWNER, SEATREG_OWNER, 1, answers, SEATREG_ANSWERS_SIZE);
    sum += seatreg_grant_table(block, SEATREG_BLOCK_SIZE, SEATREG_OWNER, 1, 9, 1, 2, NO_TEXT, answers, SEATREG_ANSWERS_SIZE);
    sum += seatreg_reach_table(block, SEATREG_BLOCK_SIZE, SEATREG_OWNER, 1, NO_TEXT, answers, SEATREG_ANSWERS_SIZE);
    sum += seatreg_downgrade_table(block, SEATREG_BLOCK_SIZE, SEATREG_OWNER, SEATREG_OWNER, 1, 8, NO_TEXT, answers, SEATREG_ANSWERS_SIZE);
    sum += seatreg_set_marks(block, SEATREG_BLOCK_SIZE, SEATREG_OWNER, 1, 5, NO_TEXT, answers, SEATREG_ANSWERS_SIZE);
    if (seatreg_marks(block, 1) != 5 || seatreg_answer(answers, 0) != 0 || seatreg_answer(answers, 2) != 1)
        return 3;
    sum += seatreg_order(block, SEATREG_BLOCK_SIZE, 1, NO_TEXT, order, sizeof order, answers, SEATREG_ANSWERS_SIZE);
    if (seatreg_answer(answers, 0) != 4 || order[0] != 0 || order[1] != 255 || order[2] != 1 || order[3] != 7)
        return 4;
    sum += seatreg_downgrade_slip(block, SEATREG_BLOCK_SIZE, SEATREG_OWNER, SEATREG_OWNER, 1, 7, NO_TEXT, slip, sizeof slip, answers, SEATREG_ANSWERS_SIZE);
    sum += seatreg_take_back(block, SEATREG_BLOCK_SIZE, SEATREG_OWNER, NO_TEXT, slip, sizeof slip, answers, SEATREG_ANSWERS_SIZE);
    struct seatreg_cut cut = seatreg_slip_cut(slip);
    if (cut.kind != SEATREG_SLIP_DOWNGRADE || cut.by != SEATREG_OWNER || cut.giver != SEATREG_OWNER || cut.receiver != 1 || cut.weight != 7)
        return 8;
    sum += seatreg_revoke_slip(block, SEATREG_BLOCK_SIZE, SEATREG_OWNER, SEATREG_OWNER, 1, NO_TEXT, slip, sizeof slip, answers, SEATREG_ANSWERS_SIZE);
    if (seatreg_slip_cut(slip).kind != SEATREG_SLIP_REVOKE || seatreg_delegations(slip) != 1 || seatreg_delegation_at(slip, 0).weight != 8)
        return 9;
    sum += seatreg_take_back(block, SEATREG_BLOCK_SIZE, SEATREG_OWNER, NO_TEXT, slip, sizeof slip, answers, SEATREG_ANSWERS_SIZE);
    sum += seatreg_revoke_table(block, SEATREG_BLOCK_SIZE, SEATREG_OWNER, SEATREG_OWNER, 1, NO_TEXT, answers, SEATREG_ANSWERS_SIZE);
    if (seatreg_take_back(block, SEATREG_BLOCK_SIZE, 1, NO_TEXT, slip, sizeof slip, answers, SEATREG_ANSWERS_SIZE) != SEATREG_MAY_NOT)
        return 10;
    sum += seatreg_retire(block, SEATREG_BLOCK_SIZE, SEATREG_OWNER, 1, NO_TEXT, answers, SEATREG_ANSWERS_SIZE);
    if (seatreg_is_retired(block, 0) != 0 || seatreg_is_retired(block, 1) != 1 || seatreg_marks(block, 1) != 0)
        return 5;
    if (seatreg_use(block, SEATREG_BLOCK_SIZE, 1, answers, SEATREG_ANSWERS_SIZE) != SEATREG_RETIRED)
        return 6;
    sum += seatreg_write(block, SEATREG_BLOCK_SIZE, text, sizeof text, answers, SEATREG_ANSWERS_SIZE);
    sum += seatreg_read(block, SEATREG_BLOCK_SIZE, text, (size_t)seatreg_answer(answers, 0), NO_TEXT, answers, SEATREG_ANSWERS_SIZE);
    old[0] = 2;
    sum += seatreg_bring_over(old, sizeof old, block, SEATREG_BLOCK_SIZE, answers, SEATREG_ANSWERS_SIZE);
    if (seatreg_subjects(block) != 2 || seatreg_is_retired(block, 1) != 0)
        return 7;
    return sum + (uint32_t)seatreg_answer(answers, 0) + (uint32_t)(seatreg_refusal_text(sum)[0] != 'a');
}
END
}

# main over the two translation units of `user`.
both() {
    cat <<'END'
#include "seatreg.h"
extern uint32_t one(uint8_t *block, uint8_t *answers);
extern uint32_t other(uint8_t *block, uint8_t *answers);
int main(void)
{
    uint8_t block[SEATREG_BLOCK_SIZE], answers[SEATREG_ANSWERS_SIZE];
    return one(block, answers) != 0 || other(block, answers) != 0;
}
END
}

# units LANGUAGE COMPILER...: the header in three translation units of one
# program, two of which use all of it. One that only includes it has nothing of
# it, with no optimization either.
units() {
    local language="$1"
    shift
    user >"$out/user.c" && both >"$out/both.c" && echo '#include "seatreg.h"' >"$out/only.c" &&
        "$@" "${strict[@]}" -Iinclude -x "$language" -DUSER=one -c "$out/user.c" -o "$out/one.o" &&
        "$@" "${strict[@]}" -Iinclude -x "$language" -DUSER=other -c "$out/user.c" -o "$out/other.o" &&
        "$@" "${strict[@]}" -Iinclude -x "$language" -c "$out/both.c" -o "$out/both.o" &&
        "$@" "${strict[@]}" -O0 -Iinclude -x "$language" -c "$out/only.c" -o "$out/only.o" &&
        ! nm "$out/only.o" 2>&1 | grep seatreg &&
        "$@" "$out/one.o" "$out/other.o" "$out/both.o" "$archive" -o "$out/units" &&
        "$out/units"
}

# Where the compiler has the attributes, a number that is not looked at and a
# null pointer are warned of; where it has none, the header has none.
attributes() {
    cat >"$out/ignored.c" <<'END' &&
#include "seatreg.h"
void ignored(uint8_t *block, uint8_t *answers);
void ignored(uint8_t *block, uint8_t *answers)
{
    seatreg_open(block, SEATREG_BLOCK_SIZE, answers, SEATREG_ANSWERS_SIZE);
}
END
        cat >"$out/null.c" <<'END' &&
#include "seatreg.h"
uint32_t null(uint8_t *block, uint8_t *answers);
uint32_t null(uint8_t *block, uint8_t *answers)
{
    return seatreg_open(block, SEATREG_BLOCK_SIZE, 0, 0) +
           seatreg_reach_table(block, SEATREG_BLOCK_SIZE, 0, 1, 0, 0, answers, SEATREG_ANSWERS_SIZE) +
           seatreg_grant_kind(block, SEATREG_BLOCK_SIZE, 0, 1, 1, 0, 0, 1, 0, 0, answers, SEATREG_ANSWERS_SIZE) +
           seatreg_set_marks(block, SEATREG_BLOCK_SIZE, 0, 1, 0, 0, 0, answers, SEATREG_ANSWERS_SIZE) +
           seatreg_retire(block, SEATREG_BLOCK_SIZE, 0, 1, 0, 0, answers, SEATREG_ANSWERS_SIZE) +
           seatreg_revoke_slip(block, SEATREG_BLOCK_SIZE, 0, 0, 1, 0, 0, 0, 0, answers, SEATREG_ANSWERS_SIZE) +
           seatreg_downgrade_slip(block, SEATREG_BLOCK_SIZE, 0, 0, 1, 0, 0, 0, 0, 0, answers, SEATREG_ANSWERS_SIZE) +
           seatreg_take_back(block, SEATREG_BLOCK_SIZE, 0, 0, 0, 0, 0, answers, SEATREG_ANSWERS_SIZE) +
           seatreg_order(block, SEATREG_BLOCK_SIZE, 1, 0, 0, 0, 0, answers, SEATREG_ANSWERS_SIZE) +
           seatreg_write(block, SEATREG_BLOCK_SIZE, 0, 0, answers, SEATREG_ANSWERS_SIZE) +
           seatreg_read(block, SEATREG_BLOCK_SIZE, 0, 0, 0, 0, answers, SEATREG_ANSWERS_SIZE) +
           seatreg_bring_over(0, 0, block, SEATREG_BLOCK_SIZE, answers, SEATREG_ANSWERS_SIZE);
}
END
        ! gcc -std=c99 "${strict[@]}" -Iinclude -c "$out/ignored.c" -o "$out/ignored.o" 2>"$out/ignored" &&
        grep -q 'unused-result' "$out/ignored" &&
        ! gcc -std=c99 "${strict[@]}" -Iinclude -c "$out/null.c" -o "$out/null.o" 2>"$out/null" &&
        test "$(grep -c 'Werror=nonnull' "$out/null")" -eq 17 &&
        gcc -std=c99 -U__GNUC__ -Iinclude -E "$out/ignored.c" >"$out/plain" &&
        ! grep -E '__attribute__|SEATREG_CALL' "$out/plain" &&
        gcc -std=c99 -U__GNUC__ "${strict[@]}" -Iinclude -c "$out/ignored.c" -o "$out/ignored.o"
}

# A fixed seed and number of cases, in which every refusal of every call occurs.
short() {
    make -s compare SEED=1 CASES=20000 | tee "$out/short" &&
        grep -qx 'every refusal that a call can return was returned' "$out/short" &&
        grep -qx 'compare: 20000 cases, 0 differences, seed 1' "$out/short"
}

# No call needs more than the bound, which README.md and the header state too.
stack() {
    make -s stack >"$out/stack" || return 1
    local bound
    bound="$(tail -n 1 "$out/stack")"
    grep -x 'at most [0-9]* KiB of stack' <<<"$bound" &&
        ! grep -LF "$bound" README.md include/seatreg.h | grep .
}

# The whole host in README.md prints what the block after it says.
readme() {
    rm -f "$out/readme.c" "$out/readme.expected" &&
        awk -v host="$out/readme.c" -v prints="$out/readme.expected" '
            !/^```/ { text = text $0 "\n"; next }
            !inside { inside = 1; text = ""; next }
            { inside = 0 }
            text ~ /\nint main\(/ { printf "%s", text > host; after = 1; next }
            after { printf "%s", text > prints; after = 0 }' README.md &&
        gcc -std=c99 "${strict[@]}" -Iinclude "$out/readme.c" "$archive" -o "$out/readme" &&
        "$out/readme" | diff "$out/readme.expected" -
}

# commanded OLD NEW: what README.md's command for these two files makes of the one.
commanded() {
    local command
    command="$(sed -nE "s/^ *(sed .*) $1\\.register > $2\\.register$/\\1/p" README.md)" && test -n "$command" &&
        eval "$command" '"$out/$1.register"' >"$out/made"
}

# The commands in README.md that give a register file of before 3.0.0 its column
# `pass`, and one of before 2.0.0 its column `retired`, make a file of what it was
# without these columns: the example, its delegations all ordinary, and the file of
# a fresh register.
old_files() {
    local file
    sed '/^giver/,$s/ 1$/ 0/' examples/dealers.register >"$out/dealers.register" &&
        printf '%s\n' 'subject marks retired' '0 0 0' '' 'giver receiver weight need bar pass' >"$out/fresh.register" || return 1
    for file in "$out/dealers.register" "$out/fresh.register"; do
        sed '/^giver/,$s/ [a-z0-9]*$//' "$file" >"$out/old.register" && ! cmp -s "$out/old.register" "$file" &&
            sed '1,/^$/s/ [a-z0-9]*$//' "$out/old.register" >"$out/oldest.register" &&
            ! cmp -s "$out/oldest.register" "$out/old.register" &&
            commanded old new && cmp "$out/made" "$file" &&
            commanded oldest old && cmp "$out/made" "$out/old.register" || return 1
    done
}

hosts=(host list table order over)

# Builds and runs the examples with what lies under a prefix; the flags come from
# pkg-config where there is one, and are those of this version.
# examples PREFIX
examples() {
    local flags=("-I$1/include" "-L$1/lib" -lseatreg)
    if command -v pkg-config; then
        local -x PKG_CONFIG_PATH="$1/lib/pkgconfig"
        test "$(pkg-config --modversion seatreg)" = "$version" || return 1
        eval "flags=($(pkg-config --cflags --libs seatreg))" || return 1
    fi
    for host in "${hosts[@]}"; do
        gcc -std=c99 "${strict[@]}" "examples/$host.c" "${flags[@]}" -o "$out/example" &&
            "$out/example" | diff "examples/$host.expected" - || return 1
    done
}

# What is installed, under a name with spaces, is enough to build the examples;
# a name that doesn't begin with / is one from here. Uninstall leaves no file.
installed() {
    local folder="$out/what is installed" doc
    rm -rf "$folder" && make -s install PREFIX="$folder/a b" &&
        examples "$PWD/$folder/a b" &&
        "$folder/a b/bin/seatcalls" <examples/listing.calls | diff <(target/bin/seatcalls <examples/listing.calls) - &&
        doc="$folder/a b/share/doc/seatreg" && cmp README.md "$doc/README.md" && cmp docs/01-scope.md "$doc/01-scope.md" &&
        cmp docs/02-change-requests.md "$doc/02-change-requests.md" &&
        make -s install PREFIX="/c d" DESTDIR="$PWD/$folder/e f" && test -f "$folder/e f/c d/lib/libseatreg.a" &&
        grep -qxF 'prefix=/c\ d' "$folder/e f/c d/lib/pkgconfig/seatreg.pc" &&
        make -s uninstall PREFIX="$folder/a b" && make -s uninstall PREFIX="/c d" DESTDIR="$PWD/$folder/e f" &&
        ! find "$folder" -type f | grep . && ! find "$folder" -name seatreg | grep .
}

# The tar file is the same bytes when it is made again, names no folder of this
# machine, and is enough to build the examples in another folder.
tarred() {
    local name="seatreg-$version-x86-64-linux"
    make -s dist && mv "target/dist/$name.tar" "$out/first.tar" &&
        (umask 077 && make -s dist) && cmp "$out/first.tar" "target/dist/$name.tar" &&
        (cd target/dist && sha256sum -c "$name.tar.sha256") &&
        rm -rf "$out/unpacked" && mkdir -p "$out/unpacked" && tar -xf "$out/first.tar" -C "$out/unpacked" &&
        (cd "$out/unpacked/$name" && sha256sum -c SHA256SUMS && test "$(find . -type f | wc -l)" -eq "$(($(wc -l <SHA256SUMS) + 1))") &&
        ! grep -rF "$PWD" "$out/unpacked" &&
        examples "$PWD/$out/unpacked/$name"
}

# The hosts in a stack of 64 KiB: no proof bounds the stack of a call.
small_stack() {
    for host in "${hosts[@]}"; do
        (ulimit -s 64 && exec env -i "target/host/$host") | diff "examples/$host.expected" - || return 1
    done
}

step "archive" make -s
step "archive stands alone" alone
step "make help" helped
step "build" make -s target/compare/compare
step "header" header
step "version" version
step "texts of the refusals" texts
step "header in three units of C" units c gcc -std=c99
step "attributes of the header" attributes
step "20,000 random calls" short
step "self test" make -s self-test SEED=1
step "hosts" make -s host
step "hosts in 64 KiB of stack" small_stack
step "host of README.md" readme
step "old register files by the commands of README.md" old_files
step "stack of every call" stack
step "build of the measurements" make -s target/bench/bench target/bench/versus
step "hosts with what is installed" installed
step "tar file" tarred
if command -v clang >/dev/null; then
    step "header in three units of C, by clang" units c clang -std=c99
fi
if command -v g++ >/dev/null; then
    step "header in three units of C++" units c++ g++ -std=c++98
fi
if command -v valgrind >/dev/null; then
    for host in "${hosts[@]}"; do
        step "$host.c under valgrind" valgrind -q --error-exitcode=1 "target/host/$host"
    done
fi
