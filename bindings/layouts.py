#!/usr/bin/env python3
"""The layouts of the structs of rrs.h, and its constants, read from the header itself.

usage: layouts.py program HEADER      prints a program in C, which prints the list
       layouts.py assertions HEADER   compares the assertions of the header with the list, which is
                                      on standard input
       layouts.py functions HEADER    prints the functions, as they are declared

The list has a line `STRUCT SIZE` for each struct, `STRUCT.FIELD OFFSET SIZE` for each field, with
`signed` behind it where its values may be negative, and `NAME VALUE` for each constant. The status is 1 where the assertions are others.
"""
import re
import subprocess
import sys


def preprocessed(header, *flags):
    return subprocess.run(["gcc", "-E", "-std=c99", *flags, header], check=True,
                          capture_output=True, text=True).stdout


def structs(header):
    """Each struct with the names of its fields, and whether each is a number."""
    text = preprocessed(header, "-P")
    for body, name in re.findall(r"typedef struct \w+ \{([^}]*)\} (rrs_\w+);", text):
        fields = re.findall(r"(\w+ \*?)(\w+)(\[\d+\])?;", body)
        yield name, [(field, kind.endswith("_t ") and not count) for kind, field, count in fields]


def constants(header):
    """The names of the constants: those of the enums, and the macros that have a value."""
    for body in re.findall(r"enum rrs_\w+ \{([^}]*)\}", preprocessed(header, "-P")):
        yield from re.findall(r"(RRS_\w+)", body)
    macros = preprocessed(header, "-dM")
    yield from sorted(re.findall(r"^#define (RRS_\w+) \S", macros, re.M))


def print_program(header):
    print('#include <stdio.h>\n#include <string.h>\n#include "rrs.h"\nint main(void) {')
    for struct, fields in structs(header):
        print(f'    {struct} {struct[4:]};')
    for struct, fields in structs(header):
        value = struct[4:]
        print(f"    memset(&{value}, 255, sizeof {value});")
        print(f'    printf("{struct} %u\\n", (unsigned)sizeof({struct}));')
        for field, is_number in fields:
            size = f"(unsigned)sizeof {value}.{field}"
            offset = f"(unsigned)offsetof({struct}, {field})"
            sign = f'(double){value}.{field} < 0 ? " signed" : ""' if is_number else '""'
            print(f'    printf("{struct}.{field} %u %u%s\\n", {offset}, {size}, {sign});')
    for name in constants(header):
        print(f'    printf("{name} %u\\n", (unsigned)({name}));')
    print("    return 0;\n}")


def check_assertions(header, listed):
    """Whether the header asserts each size and each offset, and nothing else."""
    wanted = []
    for line in listed:
        name, number, *_ = line.split()
        struct, _, field = name.partition(".")
        if field:
            wanted.append((f"{struct[4:]}_{field}", f"offsetof({struct}, {field}) == {number}"))
        elif struct.startswith("rrs_"):
            wanted.append((f"size_of_{struct[4:]}", f"sizeof({struct}) == {number}"))
    with open(header) as file:
        stated = re.findall(r"^RRS_ASSERT\((\w+), (.*)\);$", file.read(), re.M)
    for name, condition in wanted:
        if (name, condition) not in stated:
            print(f"not asserted: RRS_ASSERT({name}, {condition});")
    for name, condition in stated:
        if (name, condition) not in wanted:
            print(f"asserted, but not so: RRS_ASSERT({name}, {condition});")
    return 0 if stated == wanted else 1


def main():
    what, header = sys.argv[1:]
    if what == "program":
        print_program(header)
    elif what == "functions":
        text = " ".join(preprocessed(header, "-P").split())
        print("\n".join(re.findall(r"(?<=[;}] )(\w+ rrs_\w+\([^()]*\));", text)))
    else:
        sys.exit(check_assertions(header, sys.stdin.read().splitlines()))


main()
