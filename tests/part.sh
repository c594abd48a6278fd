# shellcheck shell=bash
# The tests' one library of shell functions: sourced by the scripts of tests/, from the repository's folder. It sets what tests/machine.sh
# does, and
#   room             a folder for what a test makes, which goes when the test ends
#   folder           where the programs on lines of calls are
#   passed, failed   the counts

room=$(mktemp -d) || exit 1
trap 'rm -rf "$room"' EXIT
folder=$room passed=0 failed=0

# ---- Counting

# test_that STATUS WHAT: one test, which holds where the status is 0; and what to say where it does not.
test_that() {
    if [ "$1" = 0 ]; then
        passed=$((passed + 1))
    else
        echo "FAILED $2"
        failed=$((failed + 1))
    fi
}

# faultless NAME FAULTS: one test, which holds where there is no fault.
faultless() {
    [ -z "$2" ]
    test_that $? "$1: ${2# }"
}

# same NAME WANTED GOT: two files as one test.
same() {
    if cmp -s "$2" "$3"; then
        test_that 0
    else
        test_that 1 "$1: $(diff "$2" "$3" 2>&1 | head -n 6 | cut -c 1-200)"
    fi
}

# each NAME WANTED GOT: every line of two files is a test.
each() {
    local before=$failed
    add tests/same-lines "$2" "$3"
    [ "$failed" = "$before" ] || echo "these are of $1"
}

# report [LEAST]: the last line, and the status to end with. A test that tried fewer than LEAST, or nothing, has failed.
# shellcheck disable=SC2120
report() {
    [ $((passed + failed)) -ge "${1:-1}" ] || test_that 1 "only $((passed + failed)) were tried, and not ${1:-1}"
    echo "$passed passed, $failed failed"
    [ "$failed" = 0 ]
}

# give_up WHY: ends a test where what it is made of cannot be made. must WHY COMMAND ..: that is made by the command, or the test gives up
# and shows what the command said.
give_up() {
    [ ! -f "$room/log" ] || cat "$room/log"
    test_that 1 "$1"
    report ""
    exit 1
}
must() {
    local why=$1
    shift
    "$@" >"$room/log" 2>&1 </dev/null || give_up "$why"
    rm -f "$room/log"
}

# tally STATUS FILE: adds the counts of the last line of what a command said. One with no such line, one that counted nothing, and one that
# ends badly though it counted no failure have failed.
tally() {
    local last
    last=$(tail -n 1 "$2")
    if [[ ! $last =~ ^([0-9]+)\ passed,\ ([0-9]+)\ failed$ ]]; then
        test_that 1 "there is no line 'N passed, M failed' at the end (status $1)"
        return
    fi
    passed=$((passed + BASH_REMATCH[1])) failed=$((failed + BASH_REMATCH[2]))
    [ "${BASH_REMATCH[2]}" = 0 ] || return 0
    [ "$1" = 0 ] || test_that 1 "it counted no failure, and ended with status $1"
    [ "${BASH_REMATCH[1]}" != 0 ] || test_that 1 "it tested nothing"
}

# count NAME COMMAND ..: a command that is a test, under its name and shown as it runs; its counts are added.
count() {
    local before=$SECONDS
    echo "== $1"
    shift
    "$@" 2>&1 | tee "$room/out"
    tally "${PIPESTATUS[0]}" "$room/out"
    echo "-- $((SECONDS - before)) s"
}

# add COMMAND ..: a command that is a test; its counts are added, and what else it says is shown.
add() {
    local status
    "$@" >"$room/out" 2>&1
    status=$?
    sed '$d' "$room/out"
    tally "$status" "$room/out"
}

# ---- Documents

# fenced DOCUMENT SECTION KIND: the first fenced block of a kind in a section.
fenced() { awk -v section="## $2" -v fence='```'"$3" '/^## / { here = $0 == section } here && $0 == fence { on = 1; next } on && /^```$/ { exit } on' "$1"; }

# bytes_of NAME: the bytes that a line `NAME = BYTES` of the document $page gives.
bytes_of() { sed -n "s/^$1  *= //p" "$page" | sed 's/ *#.*//; s/ //g'; }

# stated FILE ..: each statement that the document $page names, in backticks and with a capital letter, is one of these files'.
stated() {
    local name
    for name in $(grep -o '`[A-Z][A-Za-z]*`' "$page" | tr -d '`'); do
        grep -q "^abbrev pub $name : Type 0" "$@"
        test_that $? "$page names $name, which is not stated in $*"
    done
}

# ---- Bytes

# The bytes of hexadecimal digits, with or without spaces between, `-` being none; and so many zero bytes.
hex() { printf '%b' "$(sed 's/[ -]//g; s/../\\x&/g' <<<"$*")"; }
zeros() { head -c "$1" /dev/zero; }

# ---- Programs

# shellcheck source=tests/machine.sh
. tests/machine.sh || give_up "this machine lacks what the tests are built or run with"

# The kit's tools; and how a C program is built, a warning being an error.
tools=$kit/toolchain
flags=(-std=gnu99 -O2 -Wall -Wextra -Werror)

# in_crate CRATE COMMAND ..: a command in the crate's folder, where rt works on that crate.
in_crate() { (cd "crates/$1" && "${@:2}"); }

# x86 PROGRAM WORD ..: runs a program for x86-64.
x86() { ${run:+"$run"} "$@"; }

# library CRATE: its static library, proved and built for every x86-64 processor. archive CRATE: where that is.
archive() { echo "crates/$1/out/lib$1.a"; }
library() { must "the static library of $1 was not built" in_crate "$1" rt lib --cpu x86-64; }

# build NAME: a C program, into the folder. One of tests/c is over the static library, for x86-64, and boot.c over that of the boot part, which is
# built for it; one of tests/second is on OpenSSL's libcrypto, for this machine. A writer of lines runs for less time than more optimizing takes.
build() {
    local at how=() crate=spadeswirl
    for at in tests/c tests/second tests/second/lines; do
        [ ! -f "$at/$1.c" ] || break
    done
    if [ "$at" = tests/c ]; then
        [ "$1" != boot ] || { crate=spadeswirl_boot; library $crate; }
        # shellcheck disable=SC2086
        must "$at/$1.c was not built" $cc "${flags[@]}" -Iinclude -o "$folder/$1" "$at/$1.c" "$(archive $crate)"
        return
    fi
    [ "$at" = tests/second ] || how=(-Og)
    [ -e /usr/include/openssl/evp.h ] || must "libssl-dev was not installed" install_package libssl-dev
    must "$at/$1.c was not built" gcc "${flags[@]}" "${how[@]}" -o "$folder/$1" "$at/$1.c" -lcrypto
}

# programs FOLDER NAME ..: the library and these C programs, which are in FOLDER already; where that is empty all are built here.
programs() {
    local name
    [ -z "$1" ] || { folder=$1; return 0; }
    shift
    library spadeswirl
    for name; do
        build "$name"
    done
}

# proved NAME: the unit's program of that name, proved and built; rt runs what it has built, with nothing to read. unit NAME WORD ..: runs it.
proved() {
    must "the program $1 was not proved and built" in_crate "$1" rt run --cpu x86-64
}
unit() {
    local built=crates/$1/out/$1
    shift
    x86 "$built" "$@"
}

# The answers of both programs on lines of calls: unit_answers LINES ANSWERS, second_answers LINES ANSWERS.
unit_answers() { x86 "$folder/calls" <"$1" >"$2" || echo "the unit's program ended with status $?" >>"$2"; }
second_answers() { "$folder/second" <"$1" >"$2" || echo "the second program ended with status $?" >>"$2"; }
