#!/usr/bin/env bash
# Refuses each allocation of a test in turn, and says how the test ended.
#
# usage: refuse-each.sh [CRATE TEST [COUNT] | --self-test]
#
# It runs the built tests of a crate, those that `rt ci` leaves, and builds them first where they
# are older than their sources. They run with refuse.c preloaded, which the C compiler `cc` makes:
# the first allocation is refused, then the second alone, and so on up to the last that the test
# makes, which must be COUNT in all where that is given. With no arguments it does so for the tests
# below, which are written to hold whichever allocation is refused; SURFACE.md says what each shows.
# The status is 0 where each run passed, 1 where one did not or a count is another, and 2 where there
# is no such test or no C compiler, or for wrong arguments. Where CI is true a missing compiler is
# installed. --self-test tries this script: on tests that are wrong it must fail.
set -o pipefail

all='tests_kit texts::a_refused_text_may_be_asked_for_again 9
tests_kit spaces::a_refused_region_may_be_added_again 4
tests_kit pages::a_refused_page_may_be_added_again 53
tests_assembler mistakes::a_refused_source_may_be_assembled_again 22
tests_programs account::out_of_memory_leaves_no_part_of_the_steps 8
rrs_replay tests::out_of_memory_leaves_whole_answers 4'

here=$(cd "$(dirname "$0")" && pwd) || exit 2
room=$(mktemp -d) || exit 2
trap 'rm -rf "$room"' EXIT

# Makes the library that is preloaded: SOURCE
make_library() {
    [ -n "${CC:-}" ] || "$here/../../.ci/tools" cc=gcc >/dev/null || true
    if ! ${CC:-cc} -std=c99 -O2 -shared -fPIC -o "$room/refuse.so" "$1"; then
        echo "$0: refuse.c needs a C compiler, Debian's package gcc" >&2
        exit 2
    fi
}

# Runs a test with its N-th allocation refused: BINARY TEST N. Makes a file where it came so far.
run() {
    rm -f "$room/refused"
    timeout 60 env LD_PRELOAD="$room/refuse.so" REFUSE="$3" REFUSED="$room/refused" "$1" "$2"
}

# refuse BINARY CRATE TEST [COUNT]
refuse() {
    local binary=$1 crate=$2 test=$3 count=${4:-} n=1
    "$binary" --list >"$room/list" || return 1
    if ! grep -q "^$test: test" "$room/list"; then
        echo "$crate $test: there is no such test" >&2
        return 2
    fi
    while run "$binary" "$test" "$n" >"$room/said" 2>&1; do
        if [ ! -e "$room/refused" ]; then
            n=$((n - 1))
            echo "$crate $test: $n allocations, each refused"
            [ "$n" = "${count:-$n}" ] && return 0
            echo "$crate $test: there must be $count"
            return 1
        fi
        n=$((n + 1))
    done
    echo "$crate $test: fails where allocation $n is refused"
    cat "$room/said"
    return 1
}

# refuse_built CRATE TEST [COUNT]: over the tests of a crate
refuse_built() {
    "$here/../../.ci/built" tests "$1" && refuse "$here/../../crates/$1/out/$1_tests" "$@"
}

# Each test of the list, which are so many: TESTS
refuse_all() {
    local worst=0 status done=0
    while read -r crate test count; do
        status=0
        refuse_built "$crate" "$test" "$count" || status=$?
        [ "$status" -le "$worst" ] || worst=$status
        done=$((done + 1))
    done <<<"$all"
    [ "$done" = "$1" ] || { echo "$done tests, and there must be $1"; worst=1; }
    return "$worst"
}

# Two tests, each of which makes two allocations, by malloc and by realloc, with something wrong in the
# first or in what is said of it: nothing, test, count, fewer, tests, preload or name
wrong() {
    local source=$here/refuse.c name=tests::it count=2 fails=0 tests=2
    case $1 in
    test) fails=1 ;;
    count) count=3 ;;
    fewer) count=1 ;;
    tests) tests=3 ;;
    preload) source=$room/none.c && echo "int none;" >"$source" ;;
    name) name=tests::another ;;
    esac
    make_library "$source"
    cat >"$room/tests.c" <<'C'
#include <stdio.h>
#include <stdlib.h>
#include <string.h>
int main(int count, char **words) {
    volatile char *one, *other;
    if (count == 2 && strcmp(words[1], "--list") == 0)
        return puts("tests::it: test\ntests::right: test") < 0;
    one = malloc(1);
    other = realloc((void *)one, 2);
    return FAILS && strcmp(words[1], "tests::it") == 0 && (one == NULL || other == NULL);
}
C
    ${CC:-cc} -O0 -DFAILS="$fails" -o "$room/tests" "$room/tests.c" || exit 2
    all="none $name $count"$'\n'"none tests::right 2"
    refuse_built() { refuse "$room/tests" "$@"; }
    refuse_all "$tests"
}

# Each wrong subject must be seen, and the right one must pass.
self_test() {
    local what wanted status failed=0 tried=0
    for what in nothing:0 test:1 count:1 fewer:1 tests:1 preload:1 name:2; do
        wanted=${what#*:}
        status=0
        tried=$((tried + 1))
        "$here/refuse-each.sh" --wrong "${what%:*}" >"$room/seen" 2>&1 || status=$?
        [ "$status" = "$wanted" ] && continue
        echo "${what%:*} is wrong: status $status, and not $wanted"
        cat "$room/seen"
        failed=1
    done
    # a crate that is not there is none that passes or fails
    status=0
    "$here/refuse-each.sh" none tests::it >"$room/seen" 2>&1 || status=$?
    [ "$status" = 2 ] || { echo "no crate: status $status, and not 2" && failed=1; }
    # without a compiler nothing is tried
    status=0
    CC=false "$here/refuse-each.sh" none tests::it >"$room/seen" 2>&1 || status=$?
    [ "$status" = 2 ] || { echo "no compiler: status $status, and not 2" && failed=1; }
    [ "$tried" = 7 ] || { echo "$tried wrong subjects, and there must be 7" && failed=1; }
    echo "self-test: status $failed"
    return "$failed"
}

case $#:${1:-} in
0:)
    make_library "$here/refuse.c"
    refuse_all 6
    ;;
1:--self-test) self_test ;;
2:--wrong) wrong "$2" ;;
2:* | 3:*)
    make_library "$here/refuse.c"
    refuse_built "$@"
    ;;
*)
    sed -n 's/^# usage: /usage: /p' "$0" >&2
    exit 2
    ;;
esac
