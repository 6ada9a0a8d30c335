"""Exercises with guards: of each guard a program that is right, one that goes round it, and one that
nearly is right; and a class of 200, whose points and copies are known."""

import random
import re

# of each exercise of examples/lesson/guards.txt programs, each with its cases, 1 where they are right,
# and what is told: the first is right, the second goes round what is asked for, the third is nearly right
TIMES = ("times: mv t1, a0\n li a0, 0\n1: beqz a1, 2f\n andi t0, a1, 1\n beqz t0, 3f\n add a0, a0, t1\n"
         "3: slli t1, t1, 1\n srli a1, a1, 1\n j 1b\n2: ret\n")
FACTORIAL = ("factorial: li t0, 2\n blt a0, t0, 1f\n addi sp, sp, -16\n sw ra, 12(sp)\n sw {r}, 8(sp)\n"
             " mv {r}, a0\n addi a0, a0, -1\n call factorial\n mul a0, a0, {r}\n {restore}\n"
             " lw ra, 12(sp)\n addi sp, sp, 16\n ret\n1: li a0, 1\n ret\n")
# a loop, before which the function calls itself once, for nothing
BY_A_LOOP = ("factorial: li t0, 2\n blt a0, t0, 3f\n addi sp, sp, -16\n sw ra, 12(sp)\n sw a0, 8(sp)\n"
             " li a0, 0\n call factorial\n lw t0, 8(sp)\n li a0, 1\n1: beqz t0, 2f\n mul a0, a0, t0\n"
             " addi t0, t0, -1\n j 1b\n2: lw ra, 12(sp)\n addi sp, sp, 16\n ret\n3: li a0, 1\n ret\n")
GREATEST = (".data\nnumbers: .word 7, -3, 42, 19, 0\n.text\ngreatest: {first}\n1: beqz a1, 2f\n"
            " lw t1, (a0)\n ble t1, t0, 3f\n mv t0, t1\n3: addi a0, a0, 4\n addi a1, a1, -1\n j 1b\n"
            "2: mv a0, t0\n ret\n")
COUNT = ("count: mv t0, a0\n li {r}, 0\n1: lbu t1, (t0)\n beqz t1, 2f\n addi t0, t0, 1\n"
         " bne t1, a1, 1b\n addi {r}, {r}, 1\n j 1b\n2: mv a0, {r}\n ret\n")
LINE = ("line: li t0, 0x10040000\n slli a0, a0, 2\n add t0, t0, a0\n1: {test}\n sw a2, (t0)\n"
        " addi t0, t0, 4\n addi a1, a1, -1\n j 1b\n2: ret\n")
GUARDED = {
    1: [
        (TIMES, "1111", ""),
        ("times: la t0, table\n slli a0, a0, 2\n add t0, t0, a0\n lw a0, (t0)\n ret\n.data\n"
         "table: .word 0, 0, 0, 12, 0, 5, 0, 0\n", "1100", "others: not right"),
        ("times: mv t1, a0\n li a0, 0\n1: beqz a1, 2f\n add a0, a0, t1\n addi a1, a1, -1\n j 1b\n"
         "2: ret\n", "1110", "few steps: not right"),
    ],
    2: [
        (FACTORIAL.format(r="s0", restore="lw s0, 8(sp)"), "111", ""),
        (BY_A_LOOP, "100", "The program does not call factorial 3 times, but 1."),
        (FACTORIAL.format(r="s0", restore="nop"), "100", "leaves s0 changed"),
    ],
    3: [
        (GREATEST.format(first="lw t0, (a0)"), "1111", ""),
        (".data\nnumbers: .word 7, -3, 42, 19, 0\n.text\ngreatest: lw t0, (a0)\n li t1, 7\n"
         " bne t0, t1, 1f\n li a0, 42\n ret\n1: li a0, -8\n ret\n", "1100", "not right"),
        (GREATEST.format(first="li t0, 0"), "1001", "greatest(numbers, 1) is 0"),
    ],
    4: [
        (COUNT.format(r="t2"), "111", ""),
        ('count: la a0, answer\n li a7, 4\n ecall\n li a7, 10\n ecall\n.data\nanswer: .asciz "2 0"\n',
         "100", 'The output is "2 0", and "0 0" is expected.'),
        (COUNT.format(r="s0"), "010", "count leaves s0 changed"),
    ],
    5: [
        (LINE.format(test="blez a1, 2f"), "111", ""),
        ('line: la a0, answer\n li a7, 4\n ecall\n li a7, 10\n ecall\n.data\nanswer: .asciz "16 248"\n',
         "100", 'The output is "16 248", and "0 0" is expected.'),
        (LINE.format(test="bltz a1, 2f"), "001", 'The output is "17 272", and "16 248" is expected.'),
    ],
}
TITLE = "Functions with guards"

# how a program is disguised: other names, registers and comments
DISGUISED = {"t0": "t4", "t1": "x30", "t2": "t3", "t4": "t0", "times": "times"}
LABELS = ("table", "answer")


def disguised(text):
    """The same program with other registers, names, comments and blanks."""
    text = re.sub(r"\bt[0-2]\b", lambda found: DISGUISED[found[0]], text)
    for label in LABELS:
        text = re.sub(rf"\b{label}\b", f"my_{label}", text)
    lines = [re.sub(r", ", " ,  ", line) if '"' not in line else line for line in text.split("\n")]
    return "# my own work\n" + "   # so\n".join(lines)


class Student:
    """What one has handed in: of each exercise tries, each with its cases."""

    def __init__(self, number, chance):
        self.name = f"{chance.choice(FIRST_NAMES)} {chance.choice(LAST_NAMES)} {number}"
        self.file = f"{number * 37 % 1000:03}.handed-in.txt"
        self.tries = {}
        for exercise, programs in GUARDED.items():
            kinds = [chance.randrange(3) for _ in range(chance.choice((0, 1, 1, 1, 2)))]
            # what is never reached tells programs apart
            self.tries[exercise] = [
                (f" li t6, {number * 10 + exercise}\n{programs[kind][0]}", programs[kind][1])
                for kind in kinds]
        self.equal = {}

    def text(self):
        """The file, as the page saves it."""
        parts = [f"handed in: {TITLE}\nby: {self.name}\n"]
        for exercise, tries in self.tries.items():
            parts.append(f"\nexercise {exercise}: so\n")
            for text, cases in tries:
                # what the page has told of the open cases counts for nothing
                parts.append(f"try: {len(cases)} of {len(cases)} right\n")
                parts += [f"| {line}\n" for line in text.rstrip("\n").split("\n")]
        return "".join(parts)

    def row(self):
        """The line of the table."""
        cells, latest, best = [self.name, self.file], 0, 0
        for exercise, programs in GUARDED.items():
            all_tries = [cases for _, cases in self.tries[exercise]]
            if all_tries:
                points = [cases.count("1") for cases in all_tries]
                cells += [*all_tries[-1], points[-1], max(points)]
                latest, best = latest + points[-1], best + max(points)
            else:
                cells += [""] * (len(programs[0][1]) + 2)
        others = {}
        for exercise, names in sorted(self.equal.items()):
            others.setdefault(", ".join(names), []).append(str(exercise))
        notes = [f"{', '.join(numbers)} as {names}" for names, numbers in others.items()]
        return [str(cell) for cell in (*cells, latest, best, "; ".join(notes))]


FIRST_NAMES = ["Ada", "Bo", "Cleo", "Dan", "Émile", "Fay", "Gus", "Hal", "Ida", "Jon"]
LAST_NAMES = ["Ng", "Öz", "Pry", "de Roo", "Sato", "O'Toole", "Ulm", "Vu"]


def class_of(count):
    """So many who hand in, of whom some have copied from another: sorted as a table is."""
    chance = random.Random(24)
    students = [Student(number, chance) for number in range(1, count + 1)]
    for number in range(0, count, 20):
        giver, *takers = students[number:number + chance.choice((2, 3))]
        exercise = chance.choice(list(GUARDED))
        text, cases = f" li t6, {number}\n" + GUARDED[exercise][0][0], GUARDED[exercise][0][1]
        giver.tries[exercise] = [(text, cases)]
        for taker in takers:
            taker.tries[exercise] = [*taker.tries[exercise][:1], (disguised(text), cases)]
        group = [giver, *takers]
        for one in group:
            one.equal[exercise] = [other.name for other in group if other is not one]
    return students
