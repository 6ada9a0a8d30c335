"""Generated programs, which end in the page's machine as they end under rrs run --quiet. They run
in node, where the page's scripts have no view."""

import json
import pathlib
import subprocess
import tempfile

from trials import programs
from trials.report import Differs, same
from trials.running import RRS
from trials.view import WEB, Subject

PROGRAMS = 100
IN_THE_PAGE = 4
# how long a script may take, in seconds
LONGEST = 300

# how the page heads each exception that `rrs run` names
HEADINGS = {
    "IllegalInstruction": "Illegal instruction",
    "FetchError": "Fetch fault",
    "LoadAccessFault": "Load fault",
    "StoreAccessFault": "Store fault",
    "AlignmentFault": "Misaligned address",
    "EnvironmentCall": "Environment call",
    "Breakpoint": "Breakpoint instruction",
}


def node(script, *arguments):
    """Runs a script of the trials in node. Answers its status and what it printed."""
    command = ["node", WEB / "trials" / script, Subject.scripts, Subject.module, *arguments]
    try:
        run = subprocess.run(command, capture_output=True, text=True, check=False, timeout=LONGEST)
    except subprocess.TimeoutExpired:
        return 1, f"{script} did not end in {LONGEST} s"
    return run.returncode, run.stdout + run.stderr


def cases():
    """the machine, texts, links, sentences and runs, by tables of cases in node"""
    status, text = node("cases.js")
    if status:
        raise Differs(text.strip())
    return {subject: int(count) for subject, count in
            (line.rsplit(" ", 1) for line in text.splitlines())}


def as_proved(path):
    """What rrs run --quiet prints: the end, the steps, the registers and the pc."""
    words = [RRS / "out" / "rrs", "run", "--quiet", path, "1000000"]
    run = subprocess.run(words, capture_output=True, text=True, check=True)
    first, *rest = run.stdout.splitlines()
    end, steps = first.removeprefix("end: ").split(", steps ")
    return end, int(steps), dict(line.split() for line in rest)


def same_end(heading, sentence, end, registers):
    """Compares a heading and a sentence with an end as rrs run tells it."""
    name, *facts = end.split()
    values = [fact.split("=")[1] for fact in facts]
    if heading == "Exit":
        same("the end", ["EnvironmentCall", "0x0000005d"], [name, registers["x17"]])
        status = int(registers["x10"], 16) & 255
        same("the sentence",
             f"The program ended by the ecall at {values[0]}, with status {status}.", sentence)
        return
    same("the heading", HEADINGS[name], heading)
    same("values of the sentence", [], [value for value in values if value not in sentence])


def make_all(folder):
    paths = []
    for number in range(PROGRAMS):
        paths.append(pathlib.Path(folder) / f"{number}.bin")
        paths[-1].write_bytes(programs.make(number))
    return paths


def generated():
    """generated programs end as rrs run ends them, and go back through each of their states"""
    made = 0
    with tempfile.TemporaryDirectory() as folder:
        paths = make_all(folder)
        status, text = node("runs.js", *paths)
        if status:
            raise Differs(text)
        lines = text.splitlines()
        same("how many programs ran", PROGRAMS, len(lines))
        for path, line in zip(paths, lines):
            got = json.loads(line)
            end, steps, registers = as_proved(path)
            same(f"the steps of {path.name}", steps, got["steps"])
            same(f"the registers of {path.name}",
                 [registers["pc"], *(registers[f"x{i}"] for i in range(1, 32))], got["registers"])
            same_end(got["heading"], got["sentence"], end, registers)
            same(f"states of {path.name} that differ on the way back", 0, got["wrong"])
            made += steps
    return f"{PROGRAMS} programs, {made:,} steps"


def generated_in_the_page(machine):
    """some of them in the page itself, there and back"""
    machine.choose("three")
    with tempfile.TemporaryDirectory() as folder:
        for path in make_all(folder)[:IN_THE_PAGE]:
            end, steps, registers = as_proved(path)
            machine.give(path)
            machine.run()
            same(f"the steps of {path.name}", steps, machine.steps())
            same(f"the registers of {path.name}",
                 [registers["pc"], *(registers[f"x{i}"] for i in range(1, 32))],
                 machine.registers())
            same_end(machine.page.text("#heading"), machine.page.text("#sentence"), end, registers)
            machine.run("B")
            same("the first registers", ["0x00000000"] * 32, machine.registers())
            same("whether it is the first state", True, machine.is_first_state())
