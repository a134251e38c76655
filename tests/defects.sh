# For the scripts tests/*/defects, each of which puts known defects into what its test tries: the test must then fail, and say
# why. With nothing wrong, run the same way, it must pass, so that no defect counts as caught because the way of running is broken.
work=$(mktemp -d) && trap 'rm -rf "$work"' EXIT
caught=0 missed=0

# last_words: the end of what the test printed, indented.
last_words() { tail -n 5 "$work/printed" | sed 's/^/    /'; }

# right COMMAND..: the test with nothing wrong in it passes.
right() {
    "$@" >"$work/printed" 2>&1 && return
    echo "FAILS WITH NOTHING WRONG: $*"
    last_words
    missed=$((missed + 1))
}

# wrong DEFECT WORDS COMMAND..: the test with this defect in it fails, and WORDS stand in what it prints.
wrong() {
    defect=$1 words=$2
    shift 2
    if "$@" >"$work/printed" 2>&1; then
        echo "NOT CAUGHT: $defect"
    elif ! grep -qF -e "$words" "$work/printed"; then
        echo "FAILED OTHERWISE: $defect; it does not print '$words'"
        last_words
    else
        echo "caught: $defect"
        caught=$((caught + 1))
        return
    fi
    missed=$((missed + 1))
}

# all_caught: ends the script; three defects are the least.
all_caught() {
    echo "$caught defects caught, $missed not"
    [ "$missed" -eq 0 ] && [ "$caught" -ge 3 ]
}
