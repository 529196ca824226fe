#!/usr/bin/env bash
# Builds the second implementation, runs its tests, generates the cases and
# compares them with the committed ones.
set -euo pipefail

here="$(cd "$(dirname "${BASH_SOURCE[0]}")" && pwd)"
root="$(cd "$here/../.." && pwd)"
out="$root/target/second"
mkdir -p "$out"

part="second"
. "$root/tests/step.sh"

compile() {
    rustc --edition 2021 -D warnings -L "dependency=$out" "$@"
}

second=(--extern "second=$out/libsecond.rlib")
generate=(--extern "generate=$out/libgenerate.rlib")

build() {
    compile -O -C overflow-checks=on --crate-type rlib --crate-name second "$here/lib.rs" --out-dir "$out" &&
        compile "${second[@]}" --crate-type rlib --crate-name generate "$here/generate/lib.rs" --out-dir "$out" &&
        compile "${second[@]}" "${generate[@]}" --crate-name program "$here/main.rs" -o "$out/second"
}

build_tests() {
    compile "${second[@]}" "${generate[@]}" --test --crate-name checks "$here/checks/lib.rs" -o "$out/tests"
}

# Fewer tests than are written down here have not all been run.
least_tests=298

tests() {
    "$out/tests" --test-threads 1 >"$out/tests.log" 2>&1 || { cat "$out/tests.log"; return 1; }
    local ran
    ran="$(sed -nE 's/^test result: ok\. ([0-9]+) passed;.*/\1/p' "$out/tests.log")"
    echo "tests that passed: ${ran:-none}, at least $least_tests are due"
    test "${ran:-0}" -ge "$least_tests"
}

generate() {
    rm -rf "$out/cases" && "$out/second" generate "$out/cases"
}

# The kinds of cases, in the order in which the program crates/cases runs them.
kinds="base reach chain cut table raise file order marks retire slip pass"

# take FILES EXPECTED: generated files as they are committed.
# shellcheck disable=SC2086
take() {
    (
        cd "$out/rest" &&
            printf '%s\n' $1 >>"$out/args" &&
            mv $1 "$out/data/" &&
            cat $2 >>"$out/stdout" &&
            rm $2
    )
}

# Splits what was generated as it is committed: the cases, the lists and the call
# files are the program's data, their names its arguments, what is expected of
# them its standard output, in this order; the counts are in tests/cases.
committed_form() {
    rm -rf "$out/data" "$out/args" "$out/stdout" "$out/rest" && mkdir "$out/data" && cp -r "$out/cases" "$out/rest" || return 1
    for kind in $kinds; do
        take "$kind-*.cases" "$kind-*.expected" || return 1
    done
    take "list-*.lists" "list-*.expected" &&
        take "*.calls" "*.out"
}

same() {
    diff -r "$root/tests/cases" "$out/rest" &&
        diff -r "$root/crates/cases/data" "$out/data" &&
        cmp "$root/crates/cases/args" "$out/args" &&
        cmp "$root/crates/cases/stdout" "$out/stdout"
}

step "build" build
step "build of the tests" build_tests
step "tests" tests
step "generated cases" generate
step "committed form" committed_form
step "comparison with the committed cases" same
