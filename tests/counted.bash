# Sourced by tests in bash: prints each check as a line of TAP, with the reasons of a failure in comments after it, and
# the plan at the end. tools/counts.py does the same for Python, and tests/run runs such tests.

checks=0 failed=0
# The files of which a failure shows the end.
logs=()

# A check's line, by how it ended and by its name: there # begins no directive.
told() {
    local name=${2//$'\n'/ }
    name=${name//\\/\\\\}
    echo "$1 $((checks += 1)) - ${name//\#/\\#}"
}

# Counts a check that passed.
passes() {
    told ok "$1"
}

# Counts a failure, with further words on it and the ends of the logs.
fails() {
    local log
    told 'not ok' "$1"
    failed=$((failed + 1))
    for log in "${logs[@]}"; do
        tail -n 30 "$log" 2>/dev/null | sed 's/^/# /'
    done
    (($# == 1)) || printf '%s\n' "${@:2}" | sed 's/^/# /'
}

# Counts a check that isn't made, since something is missing: why, and how to get it.
skips() {
    echo "ok $((checks += 1)) # SKIP $1"
}

# Ends a test that made no check, since something is missing.
skip_all() {
    echo "1..0 # SKIP $1"
    exit 0
}

# Runs the words after a name, and counts how they end.
check() {
    if "${@:2}"; then
        passes "$1"
    else
        fails "$1"
    fi
}

# Runs words whose output goes to the first of the logs.
quietly() {
    "$@" >"${logs[0]}" 2>&1
}

# Compares an answer with what is wanted.
compare() {
    if [[ $2 == "$3" ]]; then
        passes "$1"
    else
        fails "$1" "found '$2'" "wanted '$3'"
    fi
}

# The program of this name that a test runs over: BLKQ, GATE_RACES or PLAY_CALLS in the environment names it, else it is cargo's. The
# working directory is the repository's folder.
program_of() {
    local variable=${1^^}
    realpath -s "${!variable:-rust/target/release/$1}"
}

# Copies files and folders, as tar's words name them, into a new folder. Its status 1 says that a folder changed meanwhile: another test
# may build there what the words leave out.
copied_to() {
    local to=$1 ended
    shift
    mkdir "$to" || return 1
    tar -c "$@" | tar -x -C "$to"
    ended=("${PIPESTATUS[@]}")
    ((ended[0] <= 1 && ended[1] == 0))
}

# The plan, and the status.
report() {
    echo "1..$checks"
    ((failed == 0))
}
