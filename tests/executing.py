"""How C programs are built and run by rrs exec and by qemu-riscv32, and compared with what is
wanted of them, in examples/exec/wanted."""

import re
import resource
import subprocess

from support import EXAMPLES, ROOT, run, same, text_of

HERE = EXAMPLES / "exec"
DATA = ROOT / "crates/rrs/data"
STDIN = ROOT / "crates/rrs/stdin"
WORDS = ("one", "two three", "")
GCC_TOOLS = ("riscv64-unknown-elf-gcc=gcc-riscv64-unknown-elf",
             "/usr/lib/picolibc/riscv64-unknown-elf/picolibc.specs=picolibc-riscv64-unknown-elf")
TOOLS = ("qemu-riscv32=qemu-user", "cc=gcc", "clang=clang", "make=make", "strace=strace",
         "setpriv=util-linux", *GCC_TOOLS)
# qemu-riscv32 leaves no memory of a program that a signal ends
resource.setrlimit(resource.RLIMIT_CORE, (0, resource.getrlimit(resource.RLIMIT_CORE)[1]))


def made(*words, **how):
    """Runs a command that makes something, and has to succeed."""
    done = run(*words, **how)
    assert done.status == 0, f"{words}: status {done.status}\n{done.errors}"
    return done


def compile_in(path, source, *options):
    """Compiles a source in its folder, as people do: an assert names it without the folder."""
    compiler = HERE / ("cc++" if source.suffix == ".cc" else "cc")
    made(compiler, *options, source.name, "-lm", "-o", path, cwd=source.parent)


def wanted(name):
    """What is wanted of a program."""
    return text_of(HERE / "wanted" / name)


def input_of(name):
    """The input of a trial or of a program, or else the stored one."""
    given = (HERE / f"{folder}/{name}.input" for folder in ("trials", "programs"))
    return next((path for path in given if path.exists()), STDIN)


def kept(done):
    """What is kept of a run: what it prints, what is on standard error, and its status."""
    return f"{done.output}-- standard error\n{done.errors}-- status {done.status}\n"


def of_program(text):
    """What a program prints, but not what rrs exec and qemu-riscv32 say of it."""
    return re.sub(r"(?m)^(rrs exec|qemu): .*\n", "", text)


def runs(name, *words, **how):
    """How a command ends on the input of its program."""
    return run(*words, input=text_of(input_of(name)), timeout=300, **how)


def some_steps(text):
    """What is kept, but not how many steps were made."""
    return re.sub(r"(?m), after [0-9]* steps$", ", after some steps", text)


def compare_raw(rrs, name, path, env=None, wants=None):
    """Compares a run of a program's bytes with what is wanted of it. Where reads and writes are
    shortened, by the environment, there are more steps."""
    __tracebackhide__ = True
    seen = kept(runs(name, rrs, "exec", "--raw", path, "--limit", "10000000", env=env))
    texts = [seen, wants or wanted(name)]
    same(*(map(some_steps, texts) if env else texts), name)


def compare_raw_by_qemu(qemu, name, path):
    """The same of what is built for qemu-riscv32."""
    __tracebackhide__ = True
    same(of_program(kept(runs(name, qemu, path))), of_program(wanted(name)), name)


def compare_process(rrs, name, path):
    """Compares a run of an executable with arguments."""
    __tracebackhide__ = True
    seen = kept(runs(name, rrs, "exec", path, *WORDS))
    same(of_program(seen), of_program(wanted(name)), name)


def compare_process_by_qemu(qemu, name, path):
    """The same. Where Linux serves calls that rrs exec does not, the answers are others."""
    __tracebackhide__ = True
    other = f"{name}.qemu" if (HERE / f"wanted/{name}.qemu").exists() else name
    same(of_program(kept(runs(name, qemu, path, *WORDS))), of_program(wanted(other)), name)


def says(rrs, told, status, *words, **how):
    """Compares what is on standard error, and the status."""
    __tracebackhide__ = True
    done = run(rrs, "exec", *words, stdout=subprocess.DEVNULL, **how)
    same(done.errors, told, " ".join(map(str, words)))
    assert done.status == status


def tells(rrs, name, expression, *words):
    """Whether a line of what is on standard error is one of an expression."""
    done = runs(name, rrs, "exec", *words)
    assert re.search(f"(?m){expression}", done.errors), done.errors


def ends_unread(*words):
    """Compares how a program ends that writes for ever, where nobody reads it."""
    __tracebackhide__ = True
    with subprocess.Popen([str(word) for word in words], stdin=subprocess.DEVNULL,
                          stdout=subprocess.PIPE, stderr=subprocess.PIPE) as process:
        line = process.stdout.readline()
        process.stdout.close()
        errors = process.stderr.read()
        status = process.wait(60)
    assert (line, status if status > 0 else 128 - status, errors) == (b"1\n", 141, b"")
