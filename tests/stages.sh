# shellcheck shell=bash
# Sourced by ./check and the scripts in tests/: runs stages with progress and adds up what they count.
# The last line of a stage is 'N passed, M failed'; so is that of `total`.

logs=$(mktemp -d)
trap 'rm -rf "$logs"' EXIT
passed=0
failed=0
begun=$SECONDS

# Shows the end of a log whose command failed.
show_end() {
    printf '== %s failed; the end of its output:\n' "$1"
    tail -n 60 "$logs/$1"
}

# Runs one stage: its name, a filter for what is shown of it while it runs, and its command.
stage() {
    local name=$1 shown=$2 counts from=$SECONDS status
    shift 2
    printf '== %s\n' "$name"
    "$@" 2>&1 | tee "$logs/$name" | grep --line-buffered -E "$shown"
    status=${PIPESTATUS[0]}
    counts=$(tail -n 1 "$logs/$name")
    if [[ $counts =~ ^([0-9]+)\ passed,\ ([0-9]+)\ failed$ ]]; then
        passed=$((passed + BASH_REMATCH[1]))
        failed=$((failed + BASH_REMATCH[2]))
        [[ $status -eq 0 || ${BASH_REMATCH[2]} -gt 0 ]] || failed=$((failed + 1))
    else
        failed=$((failed + 1))
    fi
    [[ $status -eq 0 ]] || show_end "$name"
    printf '== %s: %s (%d s)\n' "$name" "$counts" $((SECONDS - from))
}

# Runs a command that others need, with the same filter; it counts nothing unless it fails.
prepare() {
    local name=$1 shown=$2 from=$SECONDS status
    shift 2
    printf '== %s\n' "$name"
    "$@" 2>&1 | tee "$logs/$name" | grep --line-buffered -E "$shown"
    status=${PIPESTATUS[0]}
    if [[ $status -ne 0 ]]; then
        show_end "$name"
        failed=$((failed + 1))
    fi
    printf '== %s: status %d (%d s)\n' "$name" "$status" $((SECONDS - from))
    return "$status"
}

# Prints the sum of all stages, and fails unless something passed and nothing failed.
total() {
    printf 'all stages took %d s\n' $((SECONDS - begun))
    printf '%d passed, %d failed\n' "$passed" "$failed"
    [[ $failed -eq 0 && $passed -gt 0 ]]
}
