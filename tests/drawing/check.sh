#!/usr/bin/env bash
# The drawings: the committed ones are what the program draws; any register file
# is drawn, with all its subjects and delegations, an unsupported one too; what
# is no register file, or no step table, is refused and nothing is printed.
set -euo pipefail

here="$(cd "$(dirname "${BASH_SOURCE[0]}")" && pwd)"
cd "$here/../.."
out="target/drawing/check"
rm -rf "$out" && mkdir -p "$out"

part="drawing"
. tests/step.sh

drawing="target/drawing/drawing"

committed() {
    "$drawing" | cmp docs/p5.svg - &&
        "$drawing" examples/dealers.register | cmp docs/dealers.svg -
}

# register NAME SUBJECTS AHEAD WEIGHT: a register file in which the owner gives
# each subject weight 9, pass-only, and each subject the next ones this weight.
register() {
    awk -v subjects="$2" -v ahead="$3" -v weight="$4" 'BEGIN {
        print "subject marks retired"
        for (s = 0; s < subjects; s++)
            print s, (s == 0 ? 0 : 65536 - s), 0
        print "\ngiver receiver weight need bar pass"
        for (s = 1; s < subjects; s++)
            print 0, s, 9, 0, 0, 1
        for (s = 1; s < subjects; s++)
            for (r = s + 1; r <= s + ahead && r < subjects && lines < 256 - subjects + 1; r++) {
                print s, r, weight, 1, 2, 0
                lines++
            }
    }' >"$out/$1.register"
}

# drawn NAME SUBJECTS DELEGATIONS UNSUPPORTED PASS_ONLY: all of them are in its drawing.
drawn() {
    local svg="$out/$1.svg"
    "$drawing" "$out/$1.register" >"$svg" 2>"$out/errors" && ! test -s "$out/errors" &&
        test "$(grep -c '<text .*>marks [0-9]*</text>' "$svg")" -eq "$(($2 - 1))" &&
        test "$(grep -c '<path ' "$svg")" -eq "$3" &&
        test "$(grep -c '<path .*stroke-dasharray' "$svg")" -eq "$4" &&
        test "$(grep -c '<polygon .*fill="#ffffff"' "$svg")" -eq "$5" || return 1
    if command -v xmllint; then
        xmllint --noout "$svg" || return 1
    fi
}

# outlines NAME DASHED: so many subjects may not use the right in its drawing.
outlines() {
    test "$(grep -c '<rect .*stroke-dasharray' "$out/$1.svg")" -eq "$2"
}

# One with the owner alone, one with 64 subjects and 256 delegations, one in which
# the subjects give more than they have, and one with a retired subject. Subject 1 of
# the two in the middle has a pass-only delegation alone.
registers() {
    register fresh 1 0 0 && drawn fresh 1 0 0 0 && outlines fresh 0 &&
        register full 64 5 0 && test "$(wc -l <"$out/full.register")" -eq 323 && drawn full 64 256 0 63 &&
        register unsupported 6 1 10 && drawn unsupported 6 9 4 5 && outlines unsupported 1 &&
        printf '%s\n' 'subject marks retired' '0 0 0' '1 5 0' '2 0 1' '' 'giver receiver weight need bar pass' '0 1 9 0 0 0' \
            >"$out/retired.register" && drawn retired 3 1 0 0 && outlines retired 1
}

# refused STATUS LINE WORDS...: with these arguments the program prints nothing,
# says this line and ends with this status.
refused() {
    local status="$1" line="$2" ended=0
    shift 2
    "$drawing" "$@" >"$out/printed" 2>"$out/said" || ended=$?
    test "$ended" -eq "$status" && ! test -s "$out/printed" && diff <(echo "$line") "$out/said"
}

# number NUMBER: the refusal and its text, as the header has it.
number() {
    echo "refused with $1, $(sed -nE "s/^\| $1 \| \`SEATREG_[A-Z_]+\` \| ([^|]*) \|.*/\1/p" README.md)"
}

# The example with something wrong in it.
refusals() {
    local file=examples/dealers.register
    head -c -1 "$file" >"$out/short" && : >"$out/empty" && sed 's/$/\r/' "$file" >"$out/carriage" &&
        sed '1,/^$/s/ [a-z0-9]*$//' "$file" >"$out/old" && sed '/^giver/,$s/ [a-z0-9]*$//' "$file" >"$out/unkind" &&
        sed 's/^0 1 255 0 2 1$/0 1 255 0 2 2/' "$file" >"$out/pass" && sed 's/^8 2 0$/8 2 1/' "$file" >"$out/marked" &&
        sed 's/^6 7 0/6 6 0/' "$file" >"$out/unformed" && printf 'weight next\n' >"$out/table" &&
        awk 'BEGIN { print "weight next"; for (w = 0; w < 256; w++) print w, w }' >"$out/keeping" || return 1
    refused 1 "drawing: $out/short: $(number 7)" "$out/short" &&
        refused 1 "drawing: $out/empty: $(number 7)" "$out/empty" &&
        refused 1 "drawing: $out/carriage: $(number 7)" "$out/carriage" &&
        refused 1 "drawing: $out/old: $(number 7)" "$out/old" &&
        refused 1 "drawing: $out/unkind: $(number 7)" "$out/unkind" &&
        refused 1 "drawing: $out/pass: $(number 8)" "$out/pass" &&
        refused 1 "drawing: $out/marked: $(number 8)" "$out/marked" &&
        refused 1 "drawing: $out/unformed: $(number 8)" "$out/unformed" &&
        refused 1 "drawing: $out/table: $(number 7)" "$file" "$out/table" &&
        refused 1 "drawing: $out/keeping: $(number 17)" "$file" "$out/keeping" &&
        refused 1 "drawing: $out/none: No such file or directory (os error 2)" "$out/none" &&
        refused 1 "drawing: $out: Is a directory (os error 21)" "$out" &&
        refused 2 "usage: drawing [FILE [TABLE]]" "$file" "$out/keeping" more
}

# Under a table by which rights fall by two, some of the example is unsupported.
by_table() {
    awk 'BEGIN { print "weight next"; for (w = 0; w < 255; w++) print w, (w < 2 ? -1 : w - 2); print 255, 255 }' >"$out/two" &&
        "$drawing" examples/dealers.register "$out/two" >"$out/two.svg" &&
        grep -q '>[1-9][0-9]* unsupported under the step table lent<' "$out/two.svg"
}

step "build" make -s target/drawing/drawing
step "the committed drawings" committed
step "registers of any size" registers
step "a step table of its own" by_table
step "what is no register file" refusals
