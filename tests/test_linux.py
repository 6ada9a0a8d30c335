"""Boots Linux and U-Boot on rrs board and in QEMU, types ten lines into each, and compares what
they print and how they end. Times are left out: those at the head of the kernel's lines, and what
uptime prints; and which workers of the kernel there are meanwhile. What is typed into U-Boot
writes a program into memory, copies it, and starts it.

On rrs board the lines come through a pipe, when they are asked for, with the board's own device
tree; from a file, with the device tree that QEMU has; and from a terminal that is polled. With a
pipe that stays empty both come to their prompts. gdb stops in the kernel, at a trap, and in the
process in user mode. And of the kernel's functions those ran which are on the way from the boot
to the shell and to the end, and none of those that are there for a failure. In a headless
Chromium both boot in the page, into which the same lines are typed; its device tree is that of
rrs board.

The images are those of built/linux; where one is not there, examples/linux/build makes them, in
three minutes."""

import os
import re
import subprocess

import pytest

from support import EXAMPLES, ROOT, missing, read_of, run, same, status_of, text_of

TOOLS = ("qemu-system-riscv32=qemu-system-misc", "dtc=device-tree-compiler")
PAGE_TOOLS = ("chromium=chromium", "node=nodejs", "wasm-opt=binaryen")
pytestmark = [pytest.mark.alone, pytest.mark.qemu, pytest.mark.tools(*TOOLS)]

HERE = EXAMPLES / "linux"
BUILT = ROOT / "built/linux"
# of each system its image, the lines that are typed, its prompt, and how QEMU is to start it
SYSTEMS = {"linux": (BUILT / "Image", HERE / "typed.lines", "# ", ["-bios", "none", "-kernel"]),
           "uboot": (BUILT / "u-boot.bin", HERE / "uboot.lines", "=> ", ["-bios"])}
ENDS = {"linux": "reboot: Power down\n-- status 0\n", "uboot": "poweroff ...\n-- status 0\n"}
CONSOLE = "earlycon=uart8250,mmio,0x10000000 console=ttyS0"
BOARD = ["board", "--raw", "--memory", "32M"]
HART = "rv32,c=off,f=off,d=off,h=off,s=off,pmp=off"
POLLED = ["bash", "-c", 'stty -icanon -echo min 0 time 1 && exec "$@"', "bash"]
# of the kernel's functions those that run, and those that don't
RUN = ("start_kernel", "handle_exception", "load_flat_binary", "n_tty_read", "machine_power_off",
       "(outside")
NOT_RUN = ("die", "panic", "do_trap_insn_illegal")

systems = pytest.mark.parametrize("system", SYSTEMS)


@pytest.fixture(scope="module", autouse=True)
def images():
    """The images, which are built where they are not there."""
    if not all(image.exists() for image, *_ in SYSTEMS.values()):
        done = run(HERE / "build", BUILT)
        if done.status == 2:
            missing(done.errors.strip())
        assert done.status == 0, done.errors


@pytest.fixture(scope="module")
def tree(once):
    """The device tree of QEMU's board."""
    return once("linux-tree", lambda room: run(
        "dtc", "-q", "-I", "dts", "-O", "dtb", "-o", room / "board.dtb",
        HERE / "board.dts")) / "board.dtb"


@pytest.fixture(scope="module")
def on_qemu(once, tree):
    """What a system prints in QEMU, where U-Boot stands for the firmware: on_qemu(SYSTEM)."""
    def find(system):
        image, *_, way = SYSTEMS[system]
        command = ["qemu-system-riscv32", "-M", "virt", "-m", "32M", "-display", "none", "-monitor",
                   "none", "-serial", "stdio", "-cpu", HART, *way, image, "-dtb", tree]
        folder = once(f"qemu-{system}", lambda room: (room / "printed").write_bytes(
            typed(system, os.pipe, command).encode("latin-1")))
        return masked(text_of(folder / "printed"))
    return find


def terminal():
    """The two ends of a terminal, as os.pipe has them."""
    return os.openpty()[::-1]


def typed(system, ends, command):
    """All that a system prints, and its status, where each line is typed when it asks for one."""
    _, path, prompt, _ = SYSTEMS[system]
    lines, seen = path.read_bytes().splitlines(keepends=True), ""
    given, keys = ends()
    with subprocess.Popen(["timeout", "120", *map(str, command)], stdin=given,
                          stdout=subprocess.PIPE) as machine:
        while part := read_of(machine.stdout.fileno()):
            seen += part
            if lines and seen.endswith(prompt):
                os.write(keys, lines.pop(0))
    for end in (given, keys):
        os.close(end)
    return f"{seen}-- status {status_of(machine.returncode)}\n"


def masked(text):
    """Leaves out the times, and which workers there are."""
    text = re.sub(r"(?m)^\[ *[0-9]+\.[0-9]+\] ", "", text.replace("\r", ""))
    text = re.sub(r"(?m)^[0-9]+\.[0-9]+ [0-9]+\.[0-9]+$", "T T", text)
    return re.sub(r"(?m)^[0-9]+ \(kworker.*\n", "", text)


def by_pipe(rrs, system):
    """With the board's own device tree, whose arguments are those of the other."""
    return typed(system, os.pipe, [rrs, *BOARD, "--append", CONSOLE, SYSTEMS[system][0]])


# ---- Linux and U-Boot, in each way


@systems
def test_ten_lines(on_qemu, system):
    printed = on_qemu(system)
    assert len(re.findall(f"(?m)^{SYSTEMS[system][2]}", printed)) == 10
    assert printed.endswith(ENDS[system])


@systems
def test_a_pipe(rrs, on_qemu, system):
    same(masked(by_pipe(rrs, system)), on_qemu(system))


@systems
def test_a_file(rrs, on_qemu, tree, system):
    image, lines, *_ = SYSTEMS[system]
    with open(lines, "rb") as given:
        done = run("timeout", "120", rrs, *BOARD, "--dtb", tree, image, stdin=given)
    seen = masked(f"{done.output}-- status {done.status}\n")
    same(seen, on_qemu(system))
    if system == "uboot":   # the program that it starts
        assert len(re.findall("(?m)^K## Application terminated, rc = 0x7$", seen)) == 1


@systems
def test_a_terminal(rrs, on_qemu, tree, system):
    command = [*POLLED, rrs, *BOARD, "--input", "polled", "--dtb", tree, SYSTEMS[system][0]]
    same(masked(typed(system, terminal, command)), on_qemu(system))


@systems
def test_a_pipe_that_stays_empty(rrs, system):
    """The last line after some seconds."""
    given, keys = os.pipe()
    done = run("timeout", "6", rrs, *BOARD, SYSTEMS[system][0], stdin=given)
    for end in (given, keys):
        os.close(end)
    assert done.output.splitlines()[-1] == SYSTEMS[system][2]


# ---- the kernel in gdb, its functions, and the page


@pytest.mark.gdb
@pytest.mark.tools("gdb-multiarch=gdb-multiarch")
def test_gdb(rrs):
    """Where it stops, by the names of the kernel."""
    done = by_gdb(rrs, "-x", HERE / "kernel.gdb", BUILT / "vmlinux")
    assert re.findall("(?m)^(?:at|behind) .*", done.output) == [
        "at start_kernel: mode 3, MPP 3", "at handle_exception: mode 3, mcause 8",
        "behind the call: mode 0"]


def by_gdb(rrs, *words):
    """What gdb says of the kernel, by these words."""
    served = f"target remote | {rrs} gdb --{' '.join(BOARD)} {SYSTEMS['linux'][0]}"
    return run("timeout", "120", "gdb-multiarch", "-nx", "-batch", "-ex", served, *words)


def test_functions(rrs, tmp_path):
    """Which functions of the kernel ran, as `rrs cover` says."""
    image, lines, *_ = SYSTEMS["linux"]
    with open(lines, "rb") as given:
        run("timeout", "120", rrs, "cover", f"--{BOARD[0]}", *BOARD[1:], "--input", "polled",
            "--output", tmp_path / "counts", "--symbols", BUILT / "vmlinux", image, stdin=given)
    rows = (line.split() for line in text_of(tmp_path / "counts").splitlines())
    counts = {row[4]: row[3] for row in rows if len(row) > 4}
    assert [name for name in (*RUN, *NOT_RUN) if int(counts[name]) > 0] == list(RUN)


@pytest.mark.browser
@pytest.mark.tools(*PAGE_TOOLS)
@systems
def test_page(on_qemu, system):
    """There a raw image's hart has compressed code, and the device tree names it."""
    image, lines, prompt, _ = SYSTEMS[system]
    done = run("python3", ROOT / "web/trials/boot.py", image, prompt, lines)
    assert done.status == 0, done.errors
    print(done.errors.splitlines()[-1])
    seen = re.sub(r"-- It was powered off, with status (\d*)\.\n$", r"-- status \1\n", done.output)
    seen, count = re.subn(r"(?m)(a)c(im)$|(rv32ima)c$", r"\1\2\3", masked(seen))
    assert count == {"linux": 2, "uboot": 1}[system]
    same(seen, on_qemu(system))


@pytest.mark.gdb
@pytest.mark.tools("gdb-multiarch=gdb-multiarch", *PAGE_TOOLS)
def test_trees(rrs, tmp_path):
    """The device tree in the page, and that of rrs board, which gdb reads."""
    script = """const { scripts } = require(process.argv[1] + "/trials/cases/load.js");
const page = scripts(process.argv[1], {});
process.stdout.write(page.deviceTree(page.RAM_BYTES));"""
    with open(tmp_path / "page.dtb", "wb") as file:
        assert run("node", "-e", script, ROOT / "web", stdout=file).status == 0
    size = (tmp_path / "page.dtb").stat().st_size
    by_gdb(rrs, "-ex", f"dump binary memory {tmp_path}/rrs.dtb 0x81ff0000 (0x81ff0000 + {size})")
    own, other = (run("dtc", "-q", "-I", "dtb", "-O", "dts", tmp_path / name).output
                  for name in ("rrs.dtb", "page.dtb"))
    assert own
    same(other, own)


# ---- what is wrong must be seen


@pytest.fixture(scope="module")
def printed(rrs):
    """What Linux prints on rrs board."""
    return by_pipe(rrs, "linux")


@pytest.mark.planted
@pytest.mark.parametrize("expression, other", [
    ("Welcome", "Welcom"), (r"(?m)^1 \(init\)", "1 (inst)"), (r"(?m)^etc.*\n", ""),
    ("status 0", "status 1"), ("Power down", "Restarting")])
def test_edited(printed, on_qemu, expression, other):
    with pytest.raises(AssertionError, match="the text differs"):
        same(masked(re.sub(expression, other, printed)), on_qemu("linux"))


@pytest.mark.planted
def test_other_times(printed, on_qemu):
    edited = re.sub(r"(?m)^\[ *[0-9]+\.", "[    7.", printed)
    assert edited != printed
    same(masked(edited), on_qemu("linux"))
