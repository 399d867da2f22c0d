# Sourced by tests/sweeps/devices and tests/races/devices: runs built programs whose devices, memory or threads fail. Each run has to end
# within 300 seconds with the right status and the right line on standard error, and to write only the answer or, if the writer fails, its first
# bytes. Tests that need setpriv or unshare are skipped without them, and so are tests of a limit that the machine doesn't enforce.
#
# If BUILD isn't `proved` or `released`, the programs are the plain Rust of rust/. What its standard library does by itself isn't tested: it
# opens /dev/null for a closed standard stream, ends the program if its own few bytes are refused, and gives each
# thread a stack of 2 megabytes (rust/README.md).
plain=
[[ ${BUILD:-erased} != erased ]] || plain=1
home=$PWD examples=$PWD/examples
folder=$(mktemp -d) || exit 1
trap 'rm -rf "$folder"' EXIT
chmod 755 "$folder"
out=$folder/out errors=$folder/errors none=$folder/none
: >"$none"
mkdir "$folder/disk"
status=0 input=/dev/null
# The least address space in kilobytes that a program is run in, if it starts no thread.
least=${plain:+6000} least=${least:-3000}

# Puts a program where another user can run it too.
install_program() {
    install -m 755 "$(program_of "$1")" "$folder/$1" || exit 1
}

# Programs, by name and words, whose readers fail.
readers_fail_of() {
    local words
    for words in "$@"; do
        # $words is several.
        [[ $plain ]] || { input=/dev/null run_where 'exec <&-' $words && is "$words, no standard input" 4 read "$none"; }
        input=/ run_where : $words && is "$words, a folder to read" 4 read "$none"
        input=/dev/null run_where : $words && is "$words, nothing to read" 2 'line 1: no version' "$none"
        input=/dev/zero run_where : $words && is "$words, an endless reader" 2 'line 1: too long' "$none"
    done
}

# Whether the size of a file is limited here.
files_can_be_full() {
    ! (trap '' XFSZ; ulimit -f 1 && head -c 2048 /dev/zero >"$folder/part") 2>/dev/null && return
    skips 'full files (no limit is kept on the size of a file)'
    return 1
}

# Amounts of address space, of which a thread's stack takes 8 megabytes, and amounts of data, of which it takes 256 kilobytes. The stack
# of the main thread counts as address space when it grows, and if none is left the kernel ends the process. It doesn't count as data.
setups=()
for megabytes in 8 20 40 64 100 200 400; do
    setups+=("ulimit -s 8192; ulimit -v $((megabytes * 1024))")
done
for ((kilobytes = 3000; kilobytes <= 15000; kilobytes += 500)); do
    setups+=("ulimit -s 256; ulimit -d $kilobytes")
done

# Runs a program, by its name and words, after what the first argument sets up.
run_where() {
    timeout 300 bash -c "$1; exec \"\$@\"" bash "$folder/$2" "${@:3}" <"$input" >"$out" 2>"$errors"
    status=$?
}

# Counts a run: its status, its line on standard error ('' for none), and what it wrote, as the file has it.
is() {
    local name=$1 line=
    [[ -s $errors ]] && line=$(<"$errors")
    if [[ $status == "$2" && $line == "$3" ]] && cmp -s "$out" "$4"; then
        passes "$name"
    else
        fails "$name: status $status, '$line', $(stat -c %s "$out") bytes, and not status $2, '$3', $(stat -c %s "$4") bytes"
    fi
}

# The same for a run that may lack something: the answer, or status 4 with one of these lines and nothing written.
is_whole_or() {
    local name=$1 answer=$2 line=
    [[ -s $errors ]] && line=$(<"$errors")
    case " ${*:3} " in
    *" $line "*) [[ -n $line ]] && is "$name" 4 "$line" "$none" && return ;;
    esac
    is "$name" "$(status_of "$answer")" '' "$answer"
}

# The status that goes with an answer: 3 where a replay was stuck.
status_of() {
    [[ $(tail -n 1 "$1") == stuck* ]] && echo 3 || echo 0
}

# Each kilobyte at which a file may be full, of what a program writes for an example, and then the answer that just fits. The
# line of the fault needs a file too.
files_are_full() {
    local answer=${1%.*}.answer name=${1##*/} size
    input=$1
    size=$(stat -c %s "$answer")
    run_where "trap '' XFSZ; ulimit -f 0" "${@:2}"
    is "$name, files of no kilobyte" 4 '' "$none"
    for ((k = 1; k * 1024 < size; k++)); do
        head -c $((k * 1024)) "$answer" >"$folder/part"
        run_where "trap '' XFSZ; ulimit -f $k" "${@:2}"
        is "$name, a file of $k kilobytes" 4 write "$folder/part"
    done
    run_where "trap '' XFSZ; ulimit -f $k" "${@:2}"
    is "$name, a file of $k kilobytes" 0 '' "$answer"
}

# A program, by its name and words, whose writers fail while it answers an example, and while it has a fault to tell.
writers_fail_of() {
    local name="${*:2}"
    input=$1
    run_where 'exec >/dev/full' "${@:2}" && is "$name, a full device" 4 write "$none"
    [[ $plain ]] || { run_where 'exec >&-' "${@:2}" && is "$name, no standard output" 4 write "$none"; }
    run_where 'exec 2>/dev/full' "${@:2}" && is "$name, a full device for faults" 0 '' "${input%.*}.answer"
    run_where 'exec >/dev/full 2>/dev/full' "${@:2}" && is "$name, full devices" 4 '' "$none"
    [[ $plain ]] || { run_where 'exec <&- >&- 2>&-' "${@:2}" && is "$name, no standard streams" 4 '' "$none"; }
    input=/dev/null
    run_where 'exec 2>&-' "${@:2}" && is "$name, no standard error for a fault" 2 '' "$none"
}

# A program, by its name and words, whose answer to $input is longer than a pipe, and its readers.
readers_of_an_answer_stop() {
    local name=$1
    run_where : "$@" && cp "$out" "$folder/long" && is "$name, a long answer" 0 '' "$folder/long"
    for taken in 1 65536 300000; do
        head -c $taken "$folder/long" >"$folder/part"
        timeout 300 "$folder/$1" "${@:2}" <"$input" 2>"$errors" | head -c $taken >"$out"
        status=${PIPESTATUS[0]}
        is "$name, a pipe that is closed after $taken bytes" 4 write "$folder/part"
    done
    timeout 300 "$folder/$1" "${@:2}" <"$input" 2>"$errors" | { sleep 0.1 && cat; } >"$out"
    status=${PIPESTATUS[0]}
    is "$name, a pipe that is read late" 0 '' "$folder/long"
    if ! unshare -rm mount -t tmpfs none "$folder/disk" 2>"$folder/why"; then
        skips "$name, a full disk ($(<"$folder/why"))"
        return
    fi
    unshare -rm bash -c 'mount -t tmpfs -o size=128k none disk || exit
        timeout 300 "./$2" "${@:3}" <"$0" >disk/out 2>"$1"; status=$?; cat disk/out; exit $status' \
        "$input" "$errors" "$@" >"$out"
    status=$?
    head -c 131072 "$folder/long" >"$folder/part"
    is "$name, a full disk" 4 write "$folder/part"
}
