#!/usr/bin/env bash
# Faults put in on purpose, each into a copy of the crates: what the program of
# crates/cases prints must then differ, and must not where there is none. The
# copies are run and not proved. They lie outside of the repository, whose every
# source is for `rt ci` to prove. Needs what tests/second/check.sh generates.
set -euo pipefail

here="$(cd "$(dirname "${BASH_SOURCE[0]}")" && pwd)"
root="$(cd "$here/../.." && pwd)"
out="$root/target/faults"
rm -rf "$out" && mkdir -p "$out"
room="$(mktemp -d)"
trap 'rm -rf "$room"' EXIT

part="faults"
. "$root/tests/step.sh"

# A copy of the sources, whose program runs one file of chain calls, one of
# lists, one of calls that are lent tables, one of register files, one of orders,
# one of calls that set marks, one of retirements, one of slips and one of
# delegations of both kinds.
files=(chain-00.cases list-00.lists table-00.cases file-00.cases order-00.cases marks-00.cases retire-00.cases slip-00.cases pass-00.cases)
copy() {
    local due="$room/due" from="$root/target/second/cases" file
    rm -rf "$room/copy" "$due" && mkdir -p "$room/copy/crates" "$due" &&
        cp "$root/crates.txt" "$room/copy/" &&
        (cd "$root/crates" && cp -r --parents */src "$room/copy/crates/") &&
        : >"$due/all" || return 1
    for file in "${files[@]}"; do
        echo "$file" >>"$due/all.args" &&
            cat "$from/${file%.*}.expected" >>"$due/all.stdout" || return 1
    done
}

# edit OLD NEW: puts a text in the place of a line that the copy has once.
edit() {
    local file
    if [ "$(grep -rhxF --include='*.rt' -e "$1" "$room/copy/crates" | wc -l)" -ne 1 ]; then
        echo "not one line of the crates is: $1"
        return 1
    fi
    file="$(grep -rlxF --include='*.rt' -e "$1" "$room/copy/crates")" || return 1
    OLD="$1" NEW="$2" awk '{ print ($0 == ENVIRON["OLD"] ? ENVIRON["NEW"] : $0) }' "$file" >"$room/edited" &&
        mv "$room/edited" "$file"
}

# Runs the copy's program on these files, and compares what it prints with what is
# due.
try() {
    local file data=()
    for file in "${files[@]}"; do
        data+=(--data "$file=$root/target/second/cases/$file")
    done
    (cd "$room/copy/crates/cases" && rt try --cases "$room/due" "${data[@]}") >"$out/run" 2>&1
    local status=$?
    cat "$out/run"
    return "$status"
}

# The run says so.
says() {
    test "$(grep -cF -e "$1" "$out/run")" -eq 1
}

# The program ran to its end; what it printed then is as due, or differs.
# ended HOW
ended() {
    grep -qxE "case=all run=ended status=0 runners=[12] output=$1 proved=no" "$out/run"
}

# Without a fault it prints what is expected.
unharmed() {
    copy && try && ended expected
}

# found OLD NEW DUE PRINTED: with a line replaced it prints, at the first byte
# that differs, something else than is due.
found() {
    copy && edit "$1" "$2" || return 1
    if try; then
        return 1
    fi
    ended differs && says "expected \"$3" && says "found \"$4"
}

end='    let links = write_chain(block, giver, receiver, buf)?;'
after='    if LINK_SIZE * links < buf.len() {
        buf[LINK_SIZE * links] = 0;
    }'
filled='    if LINK_SIZE * links < buf.len() {
        buf[LINK_SIZE * links] = 170;
    }'
front='    let written = write_chain(block, giver, receiver, buf);
    if written.is_err() && buf.len() > 0 {
        buf[0] = 0;
    }
    let links = written?;'
tabled='    let links = write_chain_table(block, giver, receiver, table, buf)?;'
by_text='    write_chain_by(block, &read_table(table), giver, receiver, buf)'
by_ours='    write_chain(block, giver, receiver, buf)'
text='    if text.is_empty() {'
file_end='    let length = write_file(block, buf)?;'
file_after='    if length < buf.len() {
        buf[length] = 0;
    }'
order_end='    let subjects = write_order(block, receiver, table, buf)?;'
order_after='    if ITEM_SIZE * subjects < buf.len() {
        buf[ITEM_SIZE * subjects] = 0;
    }'
marks='    change::set_marks(block, subject as u8, marks as u16);'
bit='    set_retired(b, subject);'
five='    let cut = [number, by as u8, giver as u8, receiver as u8, weight as u8];'
exchanged='    let cut = [number, by as u8, receiver as u8, giver as u8, weight as u8];'
restored='    change::copy(&slip[..layout::BLOCK_SIZE], block);'
kind='    b[at + KIND] = delegation.kind;'
sized='    if !is_sized(calls.len(), blocks.len(), refusals.len(), answers.len()) {'
first='        if blocks.len() > 0 {
            blocks[0] = 0;
        }'

step "no fault" unharmed
step "chain spoils the byte after its part" found "$end" "$end"$'\n'"$after" '1 1 =' '0 1 ='
step "chain writes the byte that a buffer was filled with" found "$end" "$end"$'\n'"$filled" '1 1 =' '2 1 ='
step "a refused chain spoils a byte" found "$end" "$front" '0 0 =' '1 0 ='
step "chain_table spoils the byte after its part" found "$tabled" "$tabled"$'\n'"$after" '1 1 =' '0 1 ='
step "chain_table goes by our table" found "$by_text" "$by_ours" '16 0 0 0 =' '0 0 0 0 ='
step "a table's text is left out" found "$text" '    if text.len() + 1 > 0 {' '7 0 0 =' '8 0 0 ='
step "file spoils the byte after its part" found "$file_end" "$file_end"$'\n'"$file_after" '1 1 65:' '0 1 65:'
step "order spoils the byte after its part" found "$order_end" "$order_end"$'\n'"$order_after" '1 1 12:' '0 1 12:'
step "the marks stay as they were" found "$marks" '' '1 1 3 2188:' '0 0 1 ='
step "a retired subject's bit stays unset" found "$bit" '' '02........0302' '.........0302'
step "giver and receiver are exchanged on a slip" found "$five" "$exchanged" '10301/=' '30101/='
step "a cut taken back leaves the block" found "$restored" '' '2188:05.05.' '= ='
step "a record is written without its kind" found "$kind" '' '01\n0 2 0 0 2188:' '\n0 2 0 0 2188:'
step "a refused list spoils a byte" found "$sized" "$sized"$'\n'"$first" '=' '2188:'
step "a list does not copy its blocks" found '    copy_slot(blocks, i);' '' '0 1 0 0 2188:' '8 0 0 0 '
