# shellcheck shell=bash disable=SC2154
# What the commands at the top share; they source it. Whatever goes wrong is said in one line on standard error, under the
# command's name, and the status is 2 for wrong arguments or a file that is not there, and 1 for all else: something that cannot
# be read, written, understood or built. Whoever reads the output may leave: that is nothing wrong.
set -eu -o pipefail
name=${0##*/}
top=$(dirname "${BASH_SOURCE[0]}")/..
independent=$top/tests/independent/target/release/independent

# fail STATUS WHAT
fail() {
    printf '%s: %s\n' "$name" "$2" >&2
    exit "$1"
}

# take_file WHAT [ARGUMENT ..]: the command's one argument becomes `file`, which is empty for standard input. WHAT it waits for
# there is said at a terminal. Needs `usage`.
take_file() {
    local what=$1
    shift
    case ${1-} in
        -h | --help)
            echo "$usage"
            exit 0
            ;;
        -*) fail 2 "there is no option '$1' (./$name --help tells more)" ;;
    esac
    [[ $# -le 1 ]] || fail 2 "expected one file, found $# (./$name --help tells more)"
    file=${1-}
    if [[ $# -eq 1 ]]; then
        [[ -e $file ]] || fail 2 "$file: no such file"
        [[ ! -d $file ]] || fail 2 "$file: is a directory"
        [[ -r $file ]] || fail 2 "$file: not readable"
    fi
    # What is closed is said here, by the number that the system gives for it: further on its place could be another file's.
    { : 3>&2; } 2> /dev/null || exec 2> /dev/null
    { : 3>&1; } 2> /dev/null || fail 1 'standard output cannot be written: error 9'
    if ! { : 3<&0; } 2> /dev/null; then
        [[ $file ]] || fail 1 'standard input cannot be read: error 9'
        exec < /dev/null
    fi
    if [[ ! $file && -t 0 ]]; then
        echo "$name: waiting for $what (Ctrl-D ends it)" >&2
    fi
}

# need_proved PROGRAM TIME: proves and builds it if it is not there. `rt run` runs it too, here on nothing.
need_proved() {
    if [[ ! -x $top/crates/$1/out/$1 ]]; then
        echo "$name: proving and building the program, $2 .." >&2
        (cd "$top/crates/$1" && rt run) < /dev/null >&2 || fail 1 'the program was not built'
    fi
}

# Builds the independent program if it is not there, or older than its sources.
need_independent() {
    local newer=yes
    [[ ! -x $independent ]] || newer=$(find "$top/tests/independent/src" -newer "$independent" -print -quit)
    if [[ $newer ]]; then
        cargo build --release --offline --quiet --manifest-path "$top/tests/independent/Cargo.toml" < /dev/null >&2 ||
            fail 1 'the independent program was not built'
    fi
}

# run_independent ARGUMENT ..: on the file, and under the command's name.
run_independent() {
    "$independent" "$@" --as "$name" ${file:+"$file"}
}

# run_proved PROGRAM: has no status to go by. Where it could not read or write it says so on standard error, and that is all
# that it says.
run_proved() {
    local said status=0
    said=$("$top/crates/$1/out/$1" 2>&1 >&3 3>&-) || status=$?
    # It knows nothing of names.
    [[ $said != 'standard input '* ]] || said=${file:-standard input}${said#standard input}
    if [[ $said ]]; then
        fail 1 "$said"
    elif [[ $status -gt 128 && $(kill -l "$status") != PIPE ]]; then
        fail 1 "the program was ended by signal $((status - 128))"
    elif [[ $status -gt 0 && $status -le 128 ]]; then
        fail 1 "the program ended with status $status"
    fi
} 3>&1

# run_on_feed PROGRAM: on the feed in `file`, in either form. A binary feed in a file goes to it as it is; all else first
# through the independent program, which tells the form by the same rule and hands binary entries on as they come.
run_on_feed() {
    if [[ -f $file ]] && is_binary "$file"; then
        run_proved "$1" < "$file"
    else
        need_independent
        run_independent feed entries | run_proved "$1"
    fi
}

# Whether one of a file's first three bytes is a control character other than a blank or a line end. A file that cannot be
# read is left to the independent program, which says so.
is_binary() {
    [[ $(head -c 3 "$1" 2> /dev/null | LC_ALL=C tr -d '\t\n\f\r\040-\176\200-\377' | wc -c) -gt 0 ]]
}
