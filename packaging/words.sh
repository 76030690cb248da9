# The words of the command `tscache`, for the checkout's launcher and for an installed command.
#
# A script that takes them in sets `version` (as `tscache 0.1.0`), `formats` (the page on traces,
# logs and faults) and `cost` (what a proof takes, or nothing where there is none to make). Its
# function `tell_build` prints what the command `version` tells.

# The statuses of the launcher itself: 0 to 5 are the program's.
statuses="${cost:+    69  Python is missing
    70  nothing could be built
    73  nothing can be written to the checkout
    74  the disk is full
    127  the toolchain is missing}"
usage='usage: tscache replay FILE, run FILE or check FILE LOG'

say() { printf 'tscache: %s\n' "$*" >&2; }

# give_up STATUS WORDS: ends with a line that says why.
give_up() { say "$2"; exit "$1"; }

wrong_words() { printf '%s\n' "$usage" >&2; exit 2; }

tell_help() {
    cat <<HELP
$version: the timestamp cache of CockroachDB, on recorded traces

    replay FILE     makes the calls of a trace on one thread, and writes their log
    run FILE        gives each list of a trace a thread of its own, and writes their log
    check FILE LOG  says whether a log is right for a trace, or which line is not
${cost:+    prove           proves the program and builds it ($cost)
}    version         tells version, commit and kit, and whether the program is proved
    help [COMMAND]  tells this, or explains a command

    -h, --help      as help; behind a command it explains that one
    -V, --version   as version
    --              stands before files whose names begin with a hyphen

$formats says what traces, logs and exit statuses are.
HELP
}

# explain COMMAND: what a command reads and writes, and with which statuses it ends.
explain() {
    named=FILE
    reads='FILE is a trace: JSON of at most 16,777,216 bytes, 65,536 calls and 64 lists.'
    writes='Standard output gets the log, one line for each call, and nothing else.'
    ends='0  the log is written
    1  the trace is refused, and standard error names the fault
    2  the words are wrong
    4  reading or writing failed, or the trace is too long'
    case $1 in
    replay) does='Makes the calls of a trace on one thread, list after list.' ;;
    run)
        does='Makes the calls of each list of a trace on a thread of its own, side by side.'
        ends="$ends, or no thread could be started"
        ;;
    check)
        named='FILE LOG'
        does='Says whether a log is right for a trace, or which of its lines is not.'
        reads="$reads
LOG is a log, as replay and run write it."
        writes='Standard output gets one line: right, or wrong call, place or answer and the line.'
        ends='0  the log is right
    1  the trace or the log is refused, and standard error names the fault
    2  the words are wrong
    3  the log is wrong
    4  reading or writing failed, or an input is too long'
        ;;
    esac
    cat <<HELP
usage: tscache $1 $named

$does
$reads
$writes

    -h, --help  tells this
    --          stands before files whose names begin with a hyphen

Exit statuses:

    $ends
    5  out of memory
${statuses:+$statuses
}
$formats says what traces, logs and faults are.
HELP
}

explain_proof() {
    cat <<HELP
usage: tscache prove

Proves the program with all that it stands on, and builds it, which takes
$cost.
What has not changed since is not proved again. Standard error tells each step.

Exit statuses:

    0  the program is proved and built
    2  the words are wrong
$statuses
HELP
}

# answer FUNCTION WORD..: ends with what that function prints.
answer() {
    "$@" && exit
    echo 'write failed' >&2
    exit 4
}

# asks_for_help WORD..: whether a flag before `--` does.
asks_for_help() {
    for word; do
        case $word in
        -h | --help) return ;;
        --) return 1 ;;
        esac
    done
    return 1
}

# answer_words WORD..: answers where the words ask for help or for the version.
answer_words() {
    case ${1-} in
    help | --help | -h)
        [ $# -le 2 ] || wrong_words
        case ${2-} in
        '') [ $# -eq 2 ] || answer tell_help ;;
        replay | run | check) answer explain "$2" ;;
        prove) [ -z "$cost" ] || answer explain_proof ;;
        version | help) answer tell_help ;;
        esac
        wrong_words
        ;;
    version | --version | -V)
        [ $# -eq 1 ] || wrong_words
        answer tell_build
        ;;
    replay | run | check) ! asks_for_help "$@" || answer explain "$1" ;;
    prove) [ -z "$cost" ] || ! asks_for_help "$@" || answer explain_proof ;;
    esac
}

# Takes the words as the program reads them: a first `--` stands before files, and no flag does.
read_words() {
    case ${1-} in
    replay | run) wanted=1 ;;
    check) wanted=2 ;;
    *) return 1 ;;
    esac
    shift
    trace='' log='' count=0 flags=yes
    for word; do
        case $flags$word in
        yes--)
            flags=no
            continue
            ;;
        yes-?*) return 1 ;;
        esac
        count=$((count + 1))
        if [ "$count" -eq 1 ]; then trace=$word; else log=$word; fi
    done
    [ "$count" -eq "$wanted" ]
}

# Whether all words are texts. A word that is none is wrong too.
are_texts() {
    ! command -v python3 >/dev/null 2>&1 ||
        python3 -c 'import os, sys; [os.fsencode(it).decode() for it in sys.argv]' "$@" \
            2>/dev/null
}

# cannot_read FILE: says why a file can't be read, where it can't. Pipes and devices are not
# opened to see that, since whoever writes to them would take it for a reader.
cannot_read() {
    case $1 in
    /*) set -- "$1" "$1" ;;
    '') set -- "$1" '' ;;
    *) set -- "$1" "./$1" ;;
    esac
    if [ -f "$2" ]; then
        ! { true <"$2"; } 2>/dev/null || return 1
    elif [ -p "$2" ] || [ -c "$2" ] || [ -b "$2" ]; then
        ! [ -r "$2" ] || return 1
    fi
    why=$(LC_ALL=C head -c 1 -- "$2" 2>&1 >/dev/null) || true
    [ -n "$why" ] && are_texts "$1" || return 1
    say "cannot read $1: ${why##*: }"
}

# name_lost_files WORD..: says which file can't be read, before anything is built or run. Then
# nothing but `read failed` can come, unless the log is a folder: the trace may be refused first.
name_lost_files() {
    is_right='' is_lost=''
    read_words "$@" || return 0
    is_right=yes
    if cannot_read "$trace"; then
        is_lost=yes
    elif [ "$wanted" -eq 2 ] && cannot_read "$log"; then
        [ -d "$log" ] || is_lost=yes
    fi
}

# run PROGRAM WORD..: answers by a program, and says where a refusal is explained.
run() {
    waited "$@"
    status=$?
    if [ "$status" -eq 1 ]; then
        explained="$formats, \"Why a trace is refused\", says what each fault means"
        [ "${2-}" != check ] || explained="$explained, and \"Logs\" those of a log"
        say "$explained"
    fi
    exit "$status"
}

# waited COMMAND..: runs a command so that a signal to this script ends both, and gives its status.
# (One that runs beside the shell gets no input unless it is handed some.)
waited() {
    for name in HUP INT QUIT TERM; do trap "pass_on $name" "$name"; done
    if { true 8<&0; } 2>/dev/null; then
        exec 8<&0
        "$@" <&8 8<&- &
    else
        "$@" <&- &
    fi
    wait "$!"
}

# pass_on SIGNAL: ends the command, by force where it is still there after four seconds, and then
# this script as the signal would have ended it.
pass_on() {
    trap '' HUP INT QUIT TERM
    [ -z "${!-}" ] || {
        kill "$!"
        turns=40
        while kill -0 "$!" && [ $((turns -= 1)) -gt 0 ]; do sleep 0.1; done
        kill -KILL "$!"
        wait "$!"
    } 2>/dev/null
    trap - "$1"
    kill -s "$1" "$$"
}
