# For a script of the gate, whose name is in `part` and whose folder is in `out`.

# step WHAT COMMAND...: one line for the step; its output only if it fails.
step() {
    local what="$1" log="$out/step.log"
    shift
    if ! "$@" >"$log" 2>&1; then
        grep -v '^test result' "$log" || true
        echo "$part: $what: FAILED"
        exit 1
    fi
    echo "$part: $what: ok"
}

# A step runs as a condition, in which a failure does not end a function by
# itself: its commands are joined by &&.
