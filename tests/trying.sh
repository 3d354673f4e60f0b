# shellcheck shell=sh
#
# What the shell scripts of this folder share: words that are refused, starts with a limit of time, jobs, and the closing line. They read
# this file, which does nothing by itself, once they have set `set -u`.
#
# A script ends by `end`: its last line is `N passed, M failed`, with `, K skipped` where something was left out, and the status is 0 where
# something passed and nothing failed. Above that line stands what was left out, and why. Where the environment variable CI is set, or
# TESTS_ALL is 1, what is missing and could be had counts as failed.
#
#   TESTS_JOBS      so many jobs share the work; as many as there are processors where it is not set
#   TESTS_SECONDS   the seconds that one start of a program may take; 120 where it is not set

unset CDPATH
script=${0##*/}
passed=0
failed=0
skipped=0
left_out=
running=

# The starts of this job that were cut off. Where as many were, or as many trials have failed, it tries no more.
cut_off=0
most_cut_off=3
most_failed=25

refuse() {
    printf '%s: %s\n' "$script" "$1" >&2
    exit 2
}

# Refuses a word that is no number from 1 on: what it is for, and the word.
must_count() {
    case $2 in
    '' | 0* | *[!0-9]* | ??????????*) refuse "$1 is a number from 1 on, and not \`$2\`" ;;
    esac
}

# Refuses a word that names no program.
must_be_program() {
    if [ ! -f "$1" ] || [ ! -x "$1" ]; then
        refuse "there is no program $1"
    fi
}

# The path of a program, from the top.
path_of() {
    case $1 in
    /*) printf '%s\n' "$1" ;;
    *) printf '%s\n' "$PWD/$1" ;;
    esac
}

jobs=${TESTS_JOBS-$(nproc 2>/dev/null || printf '1\n')}
must_count TESTS_JOBS "$jobs"
seconds=${TESTS_SECONDS-120}
must_count TESTS_SECONDS "$seconds"

# The seconds that a start may take that has a few lines to answer.
at_once=10
if [ "$seconds" -lt "$at_once" ]; then at_once=$seconds; fi

# Makes the folder that the jobs share, and clears it away at the end.
share() {
    shared=$(mktemp -d "${TMPDIR:-/tmp}/tessla-$script.XXXXXX") || exit 1
    trap 'rm -rf -- "$shared"' EXIT
    # shellcheck disable=SC2086 # the numbers of the jobs are several words
    trap 'kill $running 2>/dev/null; wait; exit 130' HUP INT TERM
    # What belongs to the whole script.
    room=$shared/all
    mkdir -- "$room" || exit 1
}

# ---- Starts

# Starts a command, in place of the shell that calls, and cuts it off after so many seconds, with the status 124 or 137.
limited() {
    limit=$1
    shift
    if command -v timeout >/dev/null 2>&1; then
        exec timeout -k 5 "$limit" "$@"
    fi
    # A command that runs beside has no standard input but by another number.
    exec 9<&0 </dev/null
    "$@" <&9 9<&- &
    child=$!
    exec 9<&-
    watch "$child" "$limit" >/dev/null 2>&1 &
    watcher=$!
    wait "$child"
    ended=$?
    kill "$watcher" 2>/dev/null
    exit "$ended"
}

# Kills a process after so many seconds. It sleeps for one second at a time, so that none of its sleeps stays for long.
watch() {
    passing=0
    while [ "$passing" -lt "$2" ]; do
        sleep 1
        kill -0 "$1" || exit
        passing=$((passing + 1))
    done
    kill -9 "$1"
}

# Whether a status is that of a start that was cut off.
is_cut_off() {
    [ "$1" -eq 124 ] || [ "$1" -eq 137 ]
}

# ---- What was tried

# Says and counts what has failed: its name, and what is wrong, in lines that are set in.
fail() {
    failed=$((failed + 1))
    printf 'FAILED %s\n' "$1"
    if [ -n "${2-}" ]; then printf '%s\n' "$2"; fi
}

# Says what differs from what was wanted: the file in the room, and the wanted one.
differs() {
    if ! cmp -s -- "$2" "$room/$1"; then
        printf '  %s differs (wanted: -, written: +)\n' "$1"
        diff -u -- "$2" "$room/$1" | sed -n '3,20s/^/    /p'
    fi
}

# Compares a start with what was wanted: its name, its status and the wanted one, and the wanted files of stdout and stderr.
judge() {
    if is_cut_off "$2"; then cut_off=$((cut_off + 1)); fi
    differences=$(
        if [ "$2" != "$3" ]; then printf '  its status is %s, and not %s\n' "$2" "$3"; fi
        differs stdout "$4"
        differs stderr "$5"
    )
    if [ -z "$differences" ]; then
        passed=$((passed + 1))
    else
        fail "$1" "$differences"
    fi
}

all_is_wanted() {
    [ -n "${CI-}" ] || [ "${TESTS_ALL-}" = 1 ]
}

# Notes what is left out that can't be had here: what, why, and how many trials it is.
skip() {
    skipped=$((skipped + ${3:-1}))
    left_out="${left_out}left out: $1, since $2
"
}

# Notes what is left out that could be had.
miss() {
    if all_is_wanted; then
        fail "$1: it could not be tried, since $2"
    else
        skip "$1" "$2"
    fi
}

end() {
    if [ $((passed + failed)) -eq 0 ]; then fail 'all: nothing was tried'; fi
    printf '%s' "$left_out"
    closing="$passed passed, $failed failed"
    if [ "$skipped" -ne 0 ]; then closing="$closing, $skipped skipped"; fi
    printf '%s\n' "$closing"
    [ "$failed" -eq 0 ]
}

# ---- Jobs

# Does a function in all jobs, each with a room of its own, and adds up what they have counted. In it `is_mine` says which trials are the
# job's.
in_jobs() {
    job=1
    while [ "$job" -le "$jobs" ]; do
        do_job "$@" >"$shared/$job.report" 2>&1 </dev/null &
        running="$running $!"
        job=$((job + 1))
    done
    wait
    running=
    job=1
    while [ "$job" -le "$jobs" ]; do
        cat -- "$shared/$job.report"
        if read -r job_passed job_failed job_skipped <"$shared/$job/counts"; then
            passed=$((passed + job_passed))
            failed=$((failed + job_failed))
            if [ "$job_skipped" -gt 0 ]; then
                skip "$job_skipped trials of job $job" "$job_failed have failed" "$job_skipped"
            fi
        else
            fail "job $job: it was cut off"
        fi
        job=$((job + 1))
    done
}

do_job() {
    room=$shared/$job
    mkdir -- "$room" || exit 1
    number=0
    passed=0
    failed=0
    skipped=0
    "$@"
    printf '%s %s %s\n' "$passed" "$failed" "$skipped" >"$room/counts"
}

# Whether the next trial is one for this job. Where too many of its trials have failed, or its starts were cut off, no more is tried.
is_mine() {
    number=$((number + 1))
    [ $((number % jobs + 1)) -eq "$job" ] || return 1
    if [ "$cut_off" -lt "$most_cut_off" ] && [ "$failed" -lt "$most_failed" ]; then return 0; fi
    skipped=$((skipped + 1))
    return 1
}

# ---- The first lines

# Whether a program answers a few lines, each at once: what a line closes is there before the next one is written. Nothing else is worth a
# try where it doesn't; where it does, this alone counts as nothing tried.
answers() {
    printf 'in i: Events[Int]\nout last(i, i) as p\n' >"$room/talk.tsl"
    printf '%s: p = %s\n' 2 1 3 2 4 3 5 4 >"$room/talk.wanted"
    talk "$1" 5
    if [ "$failed" -eq 0 ]; then
        passed=0
        return 0
    fi
    skip 'all else' "$1 does not answer the first lines as it has to"
    return 1
}

# Gives a program lines 1 to $2 of a trace one by one. From the third line on each has an answer, for which it waits.
talk() {
    mkfifo -- "$room/lines" "$room/answers" || exit 1
    (limited "$at_once" "$1" run "$room/talk.tsl") <"$room/lines" >"$room/answers" 2>"$room/stderr" &
    exec 3<>"$room/lines" 4<"$room/answers" 5>"$room/stdout"
    printf '1: i = 1\n2: i = 2\n' >&3
    k=3
    while [ "$k" -le "$2" ]; do
        printf '%d: i = %d\n' "$k" "$k" >&3
        IFS= read -r line <&4 || break
        printf '%s\n' "$line" >&5
        k=$((k + 1))
    done
    exec 3>&-
    cat <&4 >&5
    exec 4<&- 5>&-
    wait "$!"
    judge "the first lines of $1" "$?" 0 "$room/talk.wanted" /dev/null
    rm -f -- "$room/lines" "$room/answers"
}
