#!/usr/bin/env bash
# Builds the library for C, and tries what carries it to people. The same questions go through C,
# C++ and Python, and their answers are compared with the stored ones. The structs and the
# constants of each face are compared with those of rrs.h, and the names of the library with its
# functions. The examples in C are built as C99 and as C++, with the address and the undefined
# behaviour sanitizers, and compared with what they must print. What a face does beside has tests.
#
# usage: check.sh [--self-test]
#
# The library is taken as it stands where it is newer than its sources, and else built, over what
# `rt ci` left. It needs rt, and Debian's packages gcc, g++, binutils and python3; where CI
# is true those that are missing are installed. The status is 0 where all passed, 1 where something
# did not, and 2 where a tool is missing, and nothing was tried. --self-test tries this script: on
# wrong answers, lists and counts it must fail.

# functions below are called by `try`
# shellcheck disable=SC2317
set -o pipefail

here=$(cd "$(dirname "$0")" && pwd) || exit 2
crate=$here/../crates/rrs_c
header=$crate/include/rrs.h
library=$crate/out/librrs_c.a
replay=$here/../crates/rrs_replay
layouts=$here/layouts
encode=$here/c/encode.h
room=$(mktemp -d) || exit 2
trap 'rm -rf "$room"' EXIT

if ! command -v rt >/dev/null; then
    echo "$0: there is no rt" >&2
    exit 2
fi
if ! lacking=$("$here/../.ci/tools" gcc=gcc g++=g++ nm=binutils python3=python3); then
    echo "$0: nothing was tried: not installed: $lacking" >&2
    exit 2
fi

failed=0
tries=0
fails=0
# try WHAT COMMAND ..: runs it, and shows what it printed where it fails
try() {
    local what=$1
    shift
    tries=$((tries + 1))
    if "$@" >"$room/said" 2>&1; then
        echo "passed: $what"
    else
        echo "failed: $what"
        cat "$room/said"
        fails=$((fails + 1))
        failed=1
    fi
}

# Compares how often something was tried with how often it must be, and ends: COUNT
finish() {
    if [ "$tries" != "$1" ]; then
        echo "failed: $tries tries, and there must be $1"
        failed=1
    fi
    exit "$failed"
}

warnings='-Wall -Wextra -Werror -pedantic'
checks=(-O1 -g "-fsanitize=address,undefined" -fno-sanitize-recover=all)

# build COMPILER PROGRAM FILE ..
build() {
    local compiler=$1 program=$2
    shift 2
    # shellcheck disable=SC2086 # the flags are words
    $compiler $warnings "${checks[@]}" -I"$crate/include" -o "$room/$program" "$@" -x none "$library"
}

# prints PROGRAM: it ends with status 0, and prints what is stored
prints() {
    "$room/$1" >"$room/printed" || return 1
    diff "$here/c/expected/$1.txt" "$room/printed"
}

# The questions that all faces are asked: those of rrs-replay whose answers come from elsewhere, and
# after them those of answers/questions.
gather_questions() {
    local count
    count=$(grep -n -m 1 '^$' "$replay/stdin") || return 1
    count=$((${count%%:*} - 1))
    head -n "$count" "$replay/stdin" | cat - "$here/answers/questions" >"$room/questions" &&
        head -n "$count" "$replay/stdout" | cat - "$here/answers/answers" >"$room/answers" &&
        [ "$count" = 3402 ] && [ "$(wc -l <"$room/questions")" = 9319 ]
}

# answers COMMAND ..: it answers the questions as is stored, and without a word on standard error
answers() {
    "$@" <"$room/questions" >"$room/answered" 2>"$room/errors" || { cat "$room/errors"; return 1; }
    [ ! -s "$room/errors" ] || { cat "$room/errors"; return 1; }
    cmp "$room/answers" "$room/answered" && return
    diff "$room/answers" "$room/answered" | head -20
    return 1
}

# refuses_lines COMMAND ..: it answers none of the lines with a word too much, but fails, and so it does
# where its answers can't be written
refuses_lines() {
    local line
    for line in "decode 0x00000033" "name row 1" "request 0x00000033 pc=0x00000000 last=- regs=- mem=-"; do
        echo "$line" | "$@" >"$room/answered" 2>"$room/errors" || { cat "$room/errors"; return 1; }
        ! echo "$line more" | "$@" >"$room/answered" 2>"$room/errors" || return 1
    done
    ! echo "decode 0x00000033" | "$@" >/dev/full 2>"$room/errors"
}

# The sanitizers end a program that adds past the greatest number, and one that reads past its bytes.
sanitizers_see() {
    local what
    cat >"$room/bad.c" <<'C'
static volatile char bytes[4];
int main(int count, char **words) {
    volatile int most = 2147483647, sum = 0;
    if (count != 2) return 0;
    if (words[1][0] == 'a') sum = most + count;
    else sum = bytes[4 * count];
    return 0 * sum;
}
C
    build "gcc -std=c99 -x c" bad "$room/bad.c" && "$room/bad" || return 1
    for what in add read; do
        ! "$room/bad" "$what" 2>"$room/errors" || return 1
    done
}

# what the library asks of the program that it is linked with, what it has, and that it has no state
has_names() {
    nm "$library" >"$room/nm" || return 1
    # members, their empty lines, and local labels
    awk 'NF > 1 { print $(NF - 1), $NF }' "$room/nm" | sort -u >"$room/names" || return 1
    sed -n 's/^T //p' "$room/names" >"$room/exported"
    "$here/layouts.py" functions "$header" | sed 's/^[^ ]* //; s/(.*//' | sort |
        diff - "$room/exported" || return 1
    sed -n 's/^[Uwv] //p' "$room/names" | sort -u >"$room/asked"
    ! printf '%s\n' memcpy memmove memset | comm -13 - "$room/asked" | grep . || return 1
    ! grep '^[^TtrRUwva] ' "$room/names"
}

# The layouts and the constants of the header, as COMPILER has them: COMPILER
header_has() {
    "$here/layouts.py" program "$header" >"$room/layouts.c" || return 1
    # shellcheck disable=SC2086 # the flags are words
    $1 $warnings -I"$(dirname "$header")" -o "$room/layouts" "$room/layouts.c" || return 1
    "$room/layouts" | diff "$layouts" -
}

# The header alone, and included twice, is C of each standard, and C++, as they are and as GNU has them,
# with all that a project may warn of, and without a C library, whose headers give C99 a _Static_assert;
# and with a field of another offset it is none.
header_asserts() {
    local dialect language flags tried=0 alone
    alone="-ffreestanding -nostdinc -isystem $(gcc -print-file-name=include)"
    local all='-Wconversion -Wsign-conversion -Wundef -Wshadow -Wcast-qual -Wredundant-decls'
    local of_c='-Wstrict-prototypes -Wmissing-prototypes -Wold-style-definition -Wc++-compat'
    local of_cc='-Wold-style-cast -Wuseless-cast -Wextra-semi -Wzero-as-null-pointer-constant'
    sed 's/offsetof(rrs_hart, pc) == 128/offsetof(rrs_hart, pc) == 124/' "$header" >"$room/wrong.h"
    ! cmp -s "$header" "$room/wrong.h" || return 1
    # the macro that asserts is the header's own
    ! gcc -std=c99 -E -dM -x c "$header" | grep -w RRS_ASSERT || return 1
    for dialect in c99 c11 c17 c2x c++98 c++11 c++17 c++20 gnu99 gnu17 gnu++17; do
        language=c flags="$warnings $all $of_c"
        [[ $dialect != *++* ]] || language=c++ flags="$warnings $all $of_cc"
        [[ $dialect != gnu* ]] || flags='-Wall -Wextra -Werror'
        # shellcheck disable=SC2086 # the flags are words
        gcc -std="$dialect" $flags -fsyntax-only -include "$header" -x "$language" "$header" &&
            gcc -std="$dialect" $flags $alone -fsyntax-only -x "$language" "$header" || return 1
        # shellcheck disable=SC2086 # the flags are words
        ! gcc -std="$dialect" $flags -fsyntax-only -x "$language" "$room/wrong.h" 2>"$room/wrong" ||
            return 1
        grep -q hart_pc "$room/wrong" || return 1
        tried=$((tried + 1))
    done
    [ "$tried" = 11 ]
}

# RRS_VERSION has each of its three parts, and is one operand.
counts_version() {
    sed 's/\(#define RRS_VERSION_MAJOR\) .*/\1 1/; s/\(#define RRS_VERSION_MINOR\) .*/\1 2/
        s/\(#define RRS_VERSION_PATCH\) .*/\1 3/' "$header" >"$room/version.h"
    echo 'int version[2 * RRS_VERSION == 2 * 0x010203 ? 1 : -1];' >>"$room/version.h"
    gcc -std=c99 -fsyntax-only -x c "$room/version.h"
}

# The words of encode.h are the instructions that they are meant to be, by each bit of an offset.
encodes() {
    cat >"$room/encode.c" <<'C'
#include <stdio.h>
#include "encode.h"
#include "rrs.h"
int main(void) {
    uint32_t words[128];
    unsigned count = 0, i;
    words[count++] = r_type(0x20, 5, 1, 2, 3);
    words[count++] = r_type(1, 6, 29, 30, 31);
    words[count++] = i_type(0x13, 7, 31, 16, 0x7ff);
    words[count++] = jalr(5, 6, 1);
    words[count++] = s_type(1, 3, 28, 0x55e);
    words[count++] = u_type(0x37, 9, 0x80001fff);
    for (i = 0; i < 5; i++) words[count++] = r_type(0, 0, 1u << i, 31 - (1u << i), 31);
    for (i = 0; i < 12; i++) {
        int32_t number = i < 11 ? (int32_t)1 << i : -2048;
        words[count++] = addi(1, 2, number);
        words[count++] = load(5, 17, 18, number);
        words[count++] = s_type(2, 31, 1, number);
    }
    for (i = 1; i <= 12; i++) words[count++] = b_type(7, 4, 27, i < 12 ? (int32_t)1 << i : -4096);
    for (i = 1; i <= 20; i++) words[count++] = jal(1, i < 20 ? (int32_t)1 << i : -(1 << 20));
    for (i = 12; i < 32; i++) words[count++] = u_type(0x37, 9, (uint32_t)1 << i);
    for (i = 0; i < count; i++) {
        char text[RRS_TEXT_SIZE] = "";
        rrs_disassemble(words[i], 0x100000, text, sizeof text);
        puts(text);
    }
    return 0;
}
C
    cp "$encode" "$room/encode.h" &&
        build "gcc -std=c99 -x c" encode "$room/encode.c" && "$room/encode" | diff - <(cat <<'END'
sra x1, x2, x3
rem x29, x30, x31
andi x31, x16, 2047
jalr x5, 0x001(x6)
sh x28, 1374(x3)
lui x9, 0x80001000
END
        for number in 1 2 4 8 16; do echo "add x$number, x$((31 - number)), x31"; done
        for bit in {0..11}; do
            number=$((bit < 11 ? 1 << bit : -2048))
            printf '%s\n' "addi x1, x2, $number" "lhu x17, $number(x18)" "sw x1, $number(x31)"
        done
        for bit in {1..12}; do
            printf 'bgeu x4, x27, 0x%08x\n' "$((0x100000 + (bit < 12 ? 1 << bit : -4096)))"
        done
        for bit in {1..20}; do
            printf 'jal x1, 0x%08x\n' "$((0x100000 + (bit < 20 ? 1 << bit : -(1 << 20))))"
        done
        for bit in {12..31}; do printf 'lui x9, 0x%08x\n' "$((1 << bit))"; done)
}

# Each example is built as people do it, with what a compiler has by itself.
builds_plainly() {
    local source compiler=gcc
    for source in three_words uart shadow assemble board hart lockstep/main; do
        set -- "$here/c/$source.c"
        [ "$source" != lockstep/main ] || set -- "$@" "$here/c/lockstep/design.c"
        for compiler in gcc "gcc -O2 -flto" "g++ -x c++"; do
            # shellcheck disable=SC2086 # the flags are words
            $compiler -Werror -I"$crate/include" -o "$room/plain" "$@" -x none "$library" || return 1
        done
    done
}

declares() {
    "$here/layouts.py" functions "$header" | diff "$here/functions" -
}

asserts_all() {
    "$here/layouts.py" assertions "$header" <"$layouts"
}

header_is_right() {
    try "rrs.h has the stored layouts and constants, in C" header_has "gcc -std=c99 -x c"
    try "rrs.h has the stored layouts and constants, in C++" header_has "g++ -std=c++11 -x c++"
    try "rrs.h declares the stored functions" declares
    try "rrs.h asserts each layout" asserts_all
    try "rrs.h counts its version" counts_version
    try "rrs.h is C99 to C++20, and refuses another layout" header_asserts
}

examples() {
    local program
    for program in three_words uart shadow lockstep assemble board hart; do
        case $program in
        lockstep) set -- "$here/c/lockstep/main.c" "$here/c/lockstep/design.c" ;;
        *) set -- "$here/c/$program.c" ;;
        esac
        try "$program, as C99" build "gcc -std=c99 -x c" "$program" "$@"
        try "$program prints what is stored" prints "$program"
        try "$program, as C++" build "g++ -std=c++11 -x c++" "$program" "$@"
        try "$program, as C++, prints what is stored" prints "$program"
    done
    try "a failure has its status and its text" failures_see
    try "uart, shadow, lockstep and assemble see what is wrong" examples_see
    try "replay, as C99" build "gcc -std=c99 -x c" replay "$here/c/replay.c"
    try "replay, as C99, answers as is stored" answers "$room/replay"
    try "replay refuses a line with more" refuses_lines "$room/replay"
    try "the sanitizers see what is wrong" sanitizers_see
    try "the words of encode.h are those of the table" encodes
    try "each example, as people build theirs" builds_plainly
    try "replay, as C++" build "g++ -std=c++11 -x c++" replay "$here/c/replay.c"
    try "replay, as C++, answers as is stored" answers "$room/replay"
}

# fails_with TEXT PROGRAM: it ends with status 1, and prints a text
fails_with() {
    local status=0
    "$room/$2" >"$room/printed" || status=$?
    [ "$status" = 1 ] && grep -q "$1" "$room/printed" && return
    echo "$2: status $status, and no: $1"
    return 1
}

# What does not end with status 1, or prints another text, is none that fails with a text.
failures_see() {
    local status text
    for status in 0 1 139; do
        for text in right wrong; do
            printf '#!/bin/sh\necho "it is %s"\nexit %s\n' "$text" "$status" >"$room/fails"
            chmod +x "$room/fails"
            case $status:$text in
            1:right) fails_with " right" fails || return 1 ;;
            *) ! fails_with " right" fails || return 1 ;;
            esac
        done
    done
}

# shadow and lockstep fail where the kit tells or does something wrong in one step of each: a field of
# the record in its lowest bit, or the last word of memory; lockstep where a fault is not planted; and
# uart where its program sends before the device is ready.
examples_see() {
    local field lockstep=$here/c/lockstep
    local checks=(-O1 -Drrs_step_rvfi=wrong_step_rvfi "-I$lockstep")
    local steps='rrs_hart *hart, uint32_t *words, size_t count, uint32_t base, uint64_t order,
        rrs_retired *retired'
    cat >"$room/record.c" <<C
#include <stdlib.h>
#include "rrs.h"
#undef rrs_step_rvfi
rrs_fault rrs_step_rvfi($steps);
rrs_fault wrong_step_rvfi($steps) {
    static int is_made;
    rrs_fault fault = rrs_step_rvfi(hart, words, count, base, order, retired);
    int field = atoi(getenv("FIELD"));
    int is_of_access = field == 7 || field == 11 || (field > 12 && field < 16);
    uint32_t mask = field == 14 ? retired->mem_rmask : retired->mem_wmask;
    if (is_made || order < 21 || fault.kind != RRS_OK || (is_of_access && mask == 0)) return fault;
    is_made = 1;
    if (field < 16) (&retired->insn)[field] ^= 1;
    else if (field == 16) retired->order ^= 1;
    else words[count - 1] ^= 1;
    return fault;
}
C
    sed 's/width == 2 && design->planted == PLANTED_STORE_MASK/0/' "$lockstep/design.c" \
        >"$room/unplanted.c"
    ! cmp -s "$lockstep/design.c" "$room/unplanted.c" || return 1
    build "gcc -std=c99 -DSTEPS=3000u -x c" wrong_shadow "$here/c/shadow.c" "$room/record.c" &&
        build "gcc -std=c99 -x c" wrong_kit "$lockstep/main.c" "$lockstep/design.c" \
            "$room/record.c" || return 1
    local names=(insn fetched trap pc_rdata pc_wdata rs1_addr rs1_rdata rs2_addr rs2_rdata rd_addr
        rd_wdata mem_addr mem_rmask mem_wmask mem_rdata mem_wdata)
    for field in $(seq 0 17); do
        # the shadow looks at no `fetched`, and at the bytes of a load's mask alone
        case $field in
        1 | 12) ;;
        *) FIELD=$field fails_with " the sum " wrong_shadow || return 1 ;;
        esac
        FIELD=$field fails_with "^    ${names[field]:-.*}: 0x\|found after" wrong_kit || return 1
        [ "$field" -gt 15 ] || grep -q "^    ${names[field]}: 0x" "$room/printed" || return 1
    done
    checks=(-O1 "-I$lockstep" "-I$here/c")
    build "gcc -std=c99 -x c" unplanted "$lockstep/main.c" "$room/unplanted.c" &&
        fails_with "^5 of 6 planted faults found" unplanted || return 1
    sed 's/b_type(0, 13, 0, -8)/addi(0, 0, 0)/' "$here/c/uart.c" >"$room/hasty.c"
    build "gcc -std=c99 -x c" hasty "$room/hasty.c" &&
        fails_with "bytes refused [1-9]" hasty || return 1
    assemble_sees
}

# assemble lends a room whose type is aligned, wherever a linker puts it, and prints something else
# where one of what it is told is something else.
assemble_sees() {
    local what
    printf '#include "%s"\n_Static_assert(_Alignof(__typeof__(room)) %% 16 == 0, "room");\n' \
        "$here/c/assemble.c" >"$room/aligned.c" &&
        gcc -std=gnu11 -fsyntax-only -I"$crate/include" "$room/aligned.c" || return 1
    for what in "made.entry ^= 4" "statements[1].line ^= 1" "statements[1].address ^= 4" \
        "statements[1].size ^= 1" "symbols[1].line ^= 1" "symbols[1].name ^= 1" \
        "symbols[1].length ^= 1" "symbols[1].address ^= 4" "mistakes[0].line ^= 1" \
        "mistakes[0].column ^= 1" "mistakes[0].text ^= 1" "mistakes[0].length ^= 1" \
        "bytes[1] ^= 1" "made.room ^= 1" "made.bytes ^= 1" "own.size ^= 1"; do
        sed "s/^    if (own.start/    $what;\n&/" "$here/c/assemble.c" >"$room/wrong.c"
        ! cmp -s "$here/c/assemble.c" "$room/wrong.c" || return 1
        build "gcc -std=c99 -x c" wrong_assemble "$room/wrong.c" || return 1
        "$room/wrong_assemble" >"$room/printed" 2>&1
        ! diff -q "$here/c/expected/assemble.txt" "$room/printed" >"$room/same" ||
            { echo "assemble does not see: $what" && return 1; }
    done
}

# Libraries that the faces must refuse: of a newer version, of another patch, of an older version,
# one with no rrs_request, and one that gives an unknown kind of exception and access.
make_refused() {
    local name flags
    for name in version patch older old kind; do
        case $name in
        patch) flags="-DVERSION=513 -DKIND=9" ;;
        version) flags="-DVERSION=768 -DKIND=9" ;;
        older) flags="-DVERSION=256 -DKIND=9" ;;
        old) flags="-DVERSION=512 -DKIND=9 -DOLD" ;;
        kind) flags="-DVERSION=512 -DKIND=9" ;;
        esac
        mkdir -p "$room/$name"
        # shellcheck disable=SC2086 # the flags are words
        gcc -std=c99 $warnings -fPIC $flags -I"$crate/include" -c -o "$room/$name/refused.o" \
            "$here/c/refused.c" &&
            ar rc "$room/$name/librrs_c.a" "$room/$name/refused.o" &&
            gcc -shared -o "$room/$name.so" "$room/$name/refused.o" || return 1
    done
}

c_refuses() {
    local name
    for name in version patch older; do
        gcc -std=c99 -I"$crate/include" -o "$room/refuses" "$here/c/three_words.c" \
            "$room/$name/librrs_c.a" || return 1
        "$room/refuses" >"$room/printed" 2>&1 && return 1
        echo "rrs.h and librrs_c.a are of two versions" | diff - "$room/printed" || return 1
    done
}

python() {
    (cd "$here/python" && RRS_LIBRARY=$room/librrs.so RRS_REFUSED=$room \
        PYTHONDONTWRITEBYTECODE=1 python3 -W error "$@")
}

python_prints() {
    python three_words.py >"$room/printed" || return 1
    diff "$here/python/expected.txt" "$room/printed"
}

# python_passes COUNT COMPARED EXAMPLES: so many tests pass, which compare so often, and have so many
# lines of examples
python_passes() {
    python test_rrs.py >"$room/printed" 2>&1 || { cat "$room/printed"; return 1; }
    if ! grep -q "^Ran $1 tests" "$room/printed" ||
        ! grep -qx "$2 comparisons, $3 examples" "$room/printed"; then
        cat "$room/printed"
        return 1
    fi
}

python_has_layouts() {
    python layouts.py | diff "$layouts" -
}

all() {
    try "the library is built" "$here/../.ci/built" library
    [ "$failed" = 0 ] || exit 1
    try "the library has the functions of rrs.h, no state, and asks for memset, memcpy, memmove" \
        has_names
    header_is_right
    try "the questions and their stored answers" gather_questions
    examples
    try "libraries that must be refused" make_refused
    try "three_words refuses a library of another version" c_refuses
    try "the library for Python" gcc -shared -o "$room/librrs.so" \
        -Wl,--whole-archive "$library" -Wl,--no-whole-archive
    try "python: its tests" python_passes 61 1361 20
    try "python: three_words prints what is stored" python_prints
    try "python: replay answers as is stored" answers python replay.py
    try "python: replay refuses a line with more" refuses_lines python replay.py
    try "python: the structs and constants are those of rrs.h" python_has_layouts
    finish 55
}

# The calls that do more than they may: some write a text where there is room for it, and none for
# the 0 behind it, and the others give a number where there must be 0
wrong_calls="disassemble register_name elf_function_at decode elf_parse elf_segment csr_read request
    compare step run run_cached run_until_cached csr_write undo complete_rvfi step_rvfi"

make_wrong_calls() {
    cat >"$room/calls.c" <<'C'
#include <string.h>
#include "rrs.h"
#undef rrs_disassemble
#undef rrs_register_name
#undef rrs_elf_function_at
#undef rrs_decode
#undef rrs_elf_parse
#undef rrs_elf_segment
#undef rrs_csr_read
#undef rrs_request
#undef rrs_compare
#undef rrs_step
#undef rrs_run
#undef rrs_run_cached
#undef rrs_run_until_cached
#undef rrs_csr_write
#undef rrs_undo
#undef rrs_complete_rvfi
#undef rrs_step_rvfi
#define WRONG(kind, name, parameters, arguments, change)                    \
    kind wrong_##name parameters;                                           \
    kind rrs_##name parameters;                                             \
    kind wrong_##name parameters {                                          \
        kind a = rrs_##name arguments;                                      \
        change;                                                             \
        return a;                                                           \
    }
WRONG(size_t, disassemble, (uint32_t word, uint32_t pc, char *text, size_t size),
      (word, pc, text, size), if (a == size && size > 0) memset(text, 'a', size))
WRONG(size_t, register_name, (uint32_t number, char *text, size_t size), (number, text, size),
      if (a == size && size > 0) memset(text, 'a', size))
WRONG(rrs_location, elf_function_at,
      (const uint8_t *file, size_t length, uint32_t address, char *text, size_t size),
      (file, length, address, text, size), if (a.length == size && size > 0) memset(text, 'a', size))
WRONG(rrs_instruction, decode, (uint32_t word), (word), if (a.row == 0) a.imm = 1)
WRONG(rrs_elf, elf_parse, (const uint8_t *file, size_t size), (file, size),
      if (a.refusal != RRS_ELF_OK) a.entry = 1)
WRONG(rrs_segment, elf_segment, (const uint8_t *file, size_t size, uint32_t index),
      (file, size, index), if (!a.loaded) a.flags = 1)
WRONG(rrs_csr, csr_read, (const rrs_csrs *csrs, uint32_t number, uint32_t mip, uint64_t time),
      (csrs, number, mip, time), if (!a.found) a.value = 1)
WRONG(rrs_access, request, (const rrs_hart *hart, uint32_t word), (hart, word),
      if (a.kind == RRS_LOAD) a.value = 1)
WRONG(rrs_difference, compare, (const rrs_retired *model, const rrs_retired *core, uint32_t words),
      (model, core, words), if (a.field == RRS_SAME) a.core = 1)
WRONG(rrs_fault, step, (rrs_hart *hart, uint32_t *words, size_t count, uint32_t base),
      (hart, words, count, base), if (a.kind == RRS_OK) a.word = 1)
WRONG(rrs_end, run, (rrs_hart *hart, uint32_t *words, size_t count, uint32_t base, uint64_t limit),
      (hart, words, count, base, limit), if (a.fault.kind == RRS_OK) a.fault.address = 4)
WRONG(rrs_end, run_cached,
      (rrs_hart *hart, rrs_cache *cache, uint32_t *words, size_t count, uint32_t base,
       uint64_t limit),
      (hart, cache, words, count, base, limit), if (a.fault.kind == RRS_OK) a.fault.address = 4)
WRONG(rrs_end, run_until_cached,
      (rrs_hart *hart, rrs_cache *cache, uint32_t *words, size_t count, uint32_t base,
       uint64_t limit, const uint32_t *stops, size_t stop_count),
      (hart, cache, words, count, base, limit + (limit == 100), stops, stop_count), )
WRONG(uint32_t, csr_write, (rrs_csrs *csrs, uint32_t number, uint32_t value),
      (csrs, number, value), if (a == 0) csrs->mscratch ^= 1)
/* a field of a record that is left as it was, in place of 0 */
#define LEAVES(name, parameters, arguments)                                 \
    rrs_fault wrong_##name parameters;                                      \
    rrs_fault rrs_##name parameters;                                        \
    rrs_fault wrong_##name parameters {                                     \
        uint32_t before = retired->mem_wdata;                               \
        rrs_fault fault = rrs_##name arguments;                             \
        if (retired->mem_wdata == 0) retired->mem_wdata = before;           \
        return fault;                                                       \
    }
LEAVES(complete_rvfi,
       (rrs_hart *hart, uint32_t word, uint32_t granted, uint32_t value, uint64_t order,
        rrs_retired *retired),
       (hart, word, granted, value, order, retired))
LEAVES(step_rvfi,
       (rrs_hart *hart, uint32_t *words, size_t count, uint32_t base, uint64_t order,
        rrs_retired *retired),
       (hart, words, count, base, order, retired))
void wrong_undo(rrs_hart *hart, uint32_t *words, size_t count, uint32_t base,
                const rrs_change *change);
void rrs_undo(rrs_hart *hart, uint32_t *words, size_t count, uint32_t base,
              const rrs_change *change);
void wrong_undo(rrs_hart *hart, uint32_t *words, size_t count, uint32_t base,
                const rrs_change *change) {
    rrs_undo(hart, words, count, base, change);
    if (change->size == 0 && count > 0) words[count - 1] ^= 1;
}
C
}

# The tries of what is compared and counted, where each tool answers as is stored, and ends with a status.
# They print a line more, or say of so many tests fewer that they passed, or of so many comparisons or
# examples fewer that they were made: STATUS [MORE] [FEWER] [UNCOMPARED] [UNSHOWN]
over_tools() {
    local tool fewer=${3:-0}
    mkdir "$room/bin"
    cat >"$room/bin/tool" <<SH
#!/bin/sh
$(printf 'here=%q layouts=%q' "$here" "$layouts")
case "\$*" in
*" -o "*)
    while [ "\$1" != -o ]; do shift; done
    ln -s "\$0" "\$2"
    exit
    ;;
*"functions "*) cat "\$here/functions" ;;
*layouts.py) cat "\$layouts" ;;
*test_rrs.py) echo "Ran $((24 - fewer)) tests" && echo "$((5 - ${4:-0})) comparisons, $((2 - ${5:-0})) examples" ;;
*three_words.py) cat "\$here/python/expected.txt" ;;
"") case \$0 in
    */layouts) cat "\$layouts" ;;
    *) cat "\$here/c/expected/three_words.txt" ;;
    esac ;;
esac
${2:-}
exit $1
SH
    chmod +x "$room/bin/tool"
    for tool in gcc python3; do ln -s tool "$room/bin/$tool"; done
    PATH=$room/bin:$PATH
    try "rrs.h has the stored layouts and constants" header_has gcc
    try "rrs.h declares the stored functions" declares
    try "rrs.h asserts each layout" asserts_all
    try "three_words is built" build gcc three_words "$here/c/three_words.c"
    try "three_words prints what is stored" prints three_words
    try "python: its tests" python_passes 24 5 2
    try "python: three_words prints what is stored" python_prints
    try "python: the structs and constants are those of rrs.h" python_has_layouts
}

# Tools that answer as is stored; that print more, or an empty line, end otherwise, run fewer tests, or
# compare less. Each try that looks at this must fail: right, more, blank, ended, fewer, uncompared or
# unshown
wrong_tools() {
    local wanted
    case $1 in
    right) wanted=0 && over_tools 0 ;;
    more) wanted=5 && over_tools 0 "echo more" ;;
    blank) wanted=5 && over_tools 0 echo ;;
    ended) wanted=7 && over_tools 1 ;;
    fewer) wanted=1 && over_tools 0 "" 1 ;;
    uncompared) wanted=1 && over_tools 0 "" 0 1 ;;
    unshown) wanted=1 && over_tools 0 "" 0 0 1 ;;
    esac
    [ "$fails" = "$wanted" ] || { echo "$fails tries fail, and $wanted must" && exit 3; }
    finish 8
}

# What is small, with something wrong in it: nothing, answers, lines, talks, takes, unwritten, layouts,
# assertions, asserted, besides, functions, version, comma, words, names, asks, state, zeros, tries, or one
# of the calls
wrong() {
    local more=() driver=("$room/replay")
    checks=(-O0)
    gather_questions || exit 2
    # some of each kind
    sed -n -i '1~19p' "$room/questions" "$room/answers"
    echo 'void rrs_more(void) {}' >"$room/names.c"
    echo '__attribute__((used)) static int state = 1;' >"$room/state.c"
    echo '__attribute__((used)) static int zeros;' >"$room/zeros.c"
    printf 'int printf(const char *, ...);\n%s static void more(void) { printf("more"); }\n' \
        '__attribute__((used))' >"$room/asks.c"
    # shellcheck disable=SC2016 # what the inner shell expands
    case $1 in
    answers) sed -i '39s/.$/#/' "$room/answers" ;;
    lines) sed -i '39d' "$room/answers" ;;
    layouts) sed 's/^RRS_STORE 2$/RRS_STORE 3/' "$layouts" >"$room/wrong" &&
        layouts=$room/wrong ;;
    assertions) grep -v 'fault_word' "$header" >"$room/rrs.h" && header=$room/rrs.h ;;
    asserted) sed 's/^RRS_ASSERT(fault_word, .*/RRS_ASSERT(fault_more, sizeof(rrs_fault) == 12);/' \
        "$header" >"$room/rrs.h" && header=$room/rrs.h ;;
    # one more than there are
    besides) sed 's/^RRS_ASSERT(fault_word, .*/&\nRRS_ASSERT(fault_more, sizeof(rrs_fault) == 12);/' \
        "$header" >"$room/rrs.h" && header=$room/rrs.h ;;
    functions) grep -v '^uint32_t rrs_version' "$header" >"$room/rrs.h" && header=$room/rrs.h ;;
    version) sed 's/^\(#define RRS_VERSION\) (\(.*\))$/\1 \2/' "$header" >"$room/rrs.h" &&
        header=$room/rrs.h ;;
    comma) sed 's/^    RRS_EBREAK = 7/&,/' "$header" >"$room/rrs.h" && header=$room/rrs.h ;;
    words) sed 's/(bits >> 12 & 0xff)/(bits >> 12 \& 0x7f)/' "$encode" >"$room/other.h" &&
        encode=$room/other.h ;;
    talks) driver=(sh -c 'echo more >&2; exec "$0"' "$room/replay") ;;
    takes) driver=(sh -c 'sed "s/ more\$//" | "$0"' "$room/replay") ;;
    unwritten) driver=(sh -c 'said=$("$0") && { echo "$said" 2>/dev/null; true; }' "$room/replay") ;;
    names | asks | state | zeros) cp "$library" "$room/wrong.a" && library=$room/wrong.a &&
        gcc -c -o "$room/more.o" "$room/$1.c" && ar r "$library" "$room/more.o" ;;
    nothing | tries) ;;
    *) make_wrong_calls && more=("$room/calls.c") && checks+=("-Drrs_$1=wrong_$1") ;;
    esac
    try "rrs.h has the stored layouts and constants, in C" header_has "gcc -std=c99 -x c"
    try "rrs.h asserts each layout" asserts_all
    try "rrs.h declares the stored functions" declares
    try "rrs.h counts its version" counts_version
    try "rrs.h is C99 to C++20" header_asserts
    try "the words of encode.h" encodes
    try "replay, as C99" build "gcc -std=c99 -x c" replay "$here/c/replay.c" "${more[@]}"
    try "replay, as C99, answers as is stored" answers "${driver[@]}"
    try "replay refuses a line with more" refuses_lines "${driver[@]}"
    try "the names of the library" has_names
    [ "$1" != tries ] || tries=9
    finish 10
}

# Each wrong subject must be seen, and the right one must pass.
self_test() {
    local what status tried=0
    for what in nothing right more blank ended fewer uncompared unshown answers lines talks takes unwritten \
        layouts assertions asserted besides functions version comma words names asks state zeros tries \
        $wrong_calls; do
        status=0
        tried=$((tried + 1))
        "$here/check.sh" --wrong "$what" >"$room/seen" 2>&1 || status=$?
        case $what:$status in
        nothing:0 | right:0) ;;
        nothing:* | right:* | *:3) cat "$room/seen" && failed=1 ;;
        # what is not built shows nothing
        *:1)
            if ! grep -q '^failed: ' "$room/seen" ||
                grep -q '^failed: replay, as C99$' "$room/seen"; then
                echo "not seen: $what is wrong" && failed=1
            fi
            ;;
        *) echo "not seen: $what is wrong" && failed=1 ;;
        esac
    done
    [ "$tried" = 43 ] || { echo "$tried subjects, and there must be 43" && failed=1; }
    echo "self-test: status $failed"
    exit "$failed"
}

case "$*" in
"") all ;;
--self-test) self_test ;;
--wrong\ right | --wrong\ more | --wrong\ blank | --wrong\ ended | --wrong\ fewer | --wrong\ un[cs]*)
    wrong_tools "$2"
    ;;
--wrong\ *) wrong "$2" ;;
*)
    echo "usage: check.sh [--self-test]" >&2
    exit 2
    ;;
esac
