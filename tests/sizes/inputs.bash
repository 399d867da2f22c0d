# Sourced by tests/sizes/run and tests/races/sizes: makes inputs of the greatest sizes, and compares a program's whole answer with one that
# the test computes. It works in a folder of its own. The caller sets `program`, and has sourced tests/counted.bash.
folder=$(mktemp -d) || exit 1
trap 'rm -rf "$folder"' EXIT
cd "$folder" || exit 1
: >nothing

# The most bytes of an input, and the bytes of the greatest disk.
MOST=1048576 DISK=2097152

# Runs a program, with the words behind the sixth argument, on a file, and compares its status, its line on standard
# error ('' for none) and what it writes.
is() {
    local name=$1 from=$2 wanted=$3 fault=$4 answer=$5 line status
    timeout 3000 "$program" "${@:6}" <"$from" >out 2>errors
    status=$?
    line=$(<errors)
    if [[ $status == "$wanted" && $line == "$fault" ]] && cmp -s out "$answer"; then
        passes "$name"
    else
        fails "$name: status $status, '$line', $(stat -c %s out) bytes, and not status $wanted, '$fault', $(stat -c %s "$answer") bytes"
    fi
}

# Begins the file `input` with these lines.
begin() {
    printf '%s\n' "$@" >input
}

# How many groups of lines that take so many bytes fit behind `input`, with so many bytes left over (none by default).
room_for() {
    echo $(((MOST - $(stat -c %s input) - ${2:-0}) / $1))
}

# So many times these lines.
times() {
    local count=$1 group
    printf -v group '%s\n' "${@:2}"
    yes "${group%$'\n'}" | head -n $((count * ($# - 1)))
}

# The numbers from one to another, each with this behind it; no text has a percent sign.
numbered() {
    seq -f "%.0f $3" "$1" "$2"
}

# Makes `input` as long as an input may be, by a comment.
fill() {
    head -c $((MOST - $(stat -c %s input))) /dev/zero | tr '\0' '#' >>input
}

# `input` has so many bytes as an input may have, and is answered as the file `answer` has it. With one more it is refused.
is_answered() {
    fill
    is "$1" input "${2:-0}" '' answer "${@:3}"
    { cat input && printf '#'; } >longer
    is "$1, a byte too long" longer 2 'line 1: too long' nothing "${@:3}"
}

# `input` has so many bytes as an input may have, and is refused so.
is_refused() {
    fill
    is "$1" input "$2" "$3" nothing "${@:4}"
}

# Adds a line of these words and as many words `0` as there is room for.
add_many_words() {
    printf '%s' "$1" >>input
    yes ' 0' | head -n "$(room_for 2 1)" | tr -d '\n' >>input
    echo >>input
}
