"""Builds programs that people have, by `cc` from Debian's sources as they are, and runs them by
rrs exec --files and by qemu-riscv32. Both must print the same, end with the same status, and leave
the same files; some of what they print is known besides.

The programs are lua, sqlite, awk, bzip2, xz, pngtest, tree, sed and gzip; and expat, whose tests
take half a minute, with `pytest --hours`. xz, sed and gzip are configured by their own ./configure.
Their sources are fetched, as their authors gave them out, into a folder that is removed: they are
no part of this repository."""

import datetime
import gzip
import os
import platform
import re
import shutil
import subprocess

import pytest

from support import EXAMPLES, ROOT, instead, missing, run, same, text_of

HERE = EXAMPLES / "exec/debian"
CC = EXAMPLES / "exec/cc"
pytestmark = [pytest.mark.qemu, pytest.mark.tools(
    "qemu-riscv32=qemu-user", "cc=gcc", "make=make", "bison=bison", "tclsh=tcl", "xz=xz-utils",
    "bzip2=bzip2", "riscv64-unknown-elf-gcc=gcc-riscv64-unknown-elf",
    "/usr/lib/picolibc/riscv64-unknown-elf/picolibc.specs=picolibc-riscv64-unknown-elf")]
# the packages of the programs' sources
SOURCES = {"lua": ["lua5.4"], "sqlite": ["sqlite3"], "awk": ["original-awk"], "bzip2": ["bzip2"],
           "xz": ["xz-utils"], "pngtest": ["libpng1.6", "zlib"], "tree": ["tree"], "sed": ["sed"],
           "gzip": ["gzip"], "expat": ["expat"]}
LONG_AGO = datetime.datetime(2001, 2, 3, 4, 5, 6, tzinfo=datetime.timezone.utc).timestamp()

# ---- what is built: in a folder of its own, beside the sources


class Build:
    """The folder in which a program is built."""

    def __init__(self, sources, room):
        self.sources, self.room = sources, room

    def call(self, *words, folder=None):
        """Runs a command there, which has to succeed."""
        done = run(*words, cwd=folder or self.room, stderr=subprocess.STDOUT)
        assert done.status == 0, f"{words}: status {done.status}\n{done.output[-3000:]}"

    def cc(self, *words):
        """Compiles, without the warnings."""
        self.call(CC, "-w", *words)

    def files(self, pattern):
        """The sources of a pattern."""
        return sorted(self.sources.glob(pattern))

    def named(self, folder, names):
        """The C files of a folder, by their names."""
        return [self.sources / folder / f"{name}.c" for name in names.split()]


def build_lua(build):
    # luac.c is the main function of a compiler
    sources = [path for path in build.files("lua5.4/src/*.c") if path.name != "luac.c"]
    build.cc("-O1", *sources, "-lm", "-o", "lua")


def build_sqlite(build):
    """The amalgamation is made on this machine, as its authors make it."""
    build.call(build.sources / "sqlite3/configure", "--disable-tcl")
    build.call("make", "-s", "sqlite3.c", "shell.c")
    build.cc("-O1", "-DSQLITE_THREADSAFE=0", "-DSQLITE_OMIT_LOAD_EXTENSION", "shell.c",
             "sqlite3.c", "-lm", "-o", "sqlite")


def build_awk(build):
    for path in [*build.files("original-awk/*.[chy]"), build.sources / "original-awk/makefile"]:
        shutil.copy2(path, build.room)
    build.call("make", "-s", f"CC={CC} -w", "CFLAGS=-O1", "HOSTCC=gcc")
    (build.room / "a.out").rename(build.room / "awk")


def build_bzip2(build):
    build.cc("-O1", *build.named("bzip2", "blocksort huffman crctable randtable compress "
                                 "decompress bzlib bzip2"), "-o", "bzip2")


HOST = [f"--build={platform.machine()}-linux-gnu", "--host=riscv32-unknown-elf", f"CC={CC}",
        "CFLAGS=-O1 -w"]


def build_xz(build):
    build.call(build.sources / "xz-utils/configure", *HOST, "--disable-shared", "--disable-nls",
               "--disable-threads", "--disable-xzdec", "--disable-lzmadec", "--disable-lzmainfo",
               "--disable-scripts", "--disable-doc", "--disable-dependency-tracking",
               "--enable-sandbox=no")
    build.call("make", "-s")
    (build.room / "src/xz/xz").rename(build.room / "xz")


def by_configure(build, name, path):
    """As their authors have them configured and made for another machine. What such a configure
    can't try is told: that fflush sets the position of an input."""
    made = build.room / "made"
    made.mkdir()
    build.call(build.sources / name / "configure", *HOST, "gl_cv_func_fflush_stdin=yes",
               "--disable-nls", "--disable-dependency-tracking", folder=made)
    build.call("make", "-s", folder=made)
    (made / path).rename(build.room / name)


def build_sed(build):
    by_configure(build, "sed", "sed/sed")


def build_gzip(build):
    by_configure(build, "gzip", "gzip")


def build_pngtest(build):
    shutil.copy(build.sources / "libpng1.6/scripts/pnglibconf.h.prebuilt",
                build.room / "pnglibconf.h")
    zlib = build.named("zlib", "adler32 crc32 deflate inffast inflate inftrees trees zutil "
                       "compress uncompr")
    build.cc("-O1", "-I.", "-I", build.sources / "zlib", "-I", build.sources / "libpng1.6",
             *build.files("libpng1.6/png*.c"), *zlib, "-lm", "-o", "pngtest")


def build_tree(build):
    build.cc("-O1", "-DLARGEFILE_SOURCE", "-D_FILE_OFFSET_BITS=64", *build.files("tree/*.c"),
             "-o", "tree")


def build_expat(build):
    (build.room / "expat_config.h").touch()
    tests = build.named("expat/expat/tests", "runtests minicheck chardata structdata memcheck")
    build.cc("-O2", "-I.", "-I", build.sources / "expat/expat/lib", "-DXML_CONTEXT_BYTES=1024",
             "-DBYTEORDER=1234", "-DXML_NS", "-DXML_DTD", "-DXML_POOR_ENTROPY",
             *build.files("expat/expat/lib/*.c"), *tests, "-lm", "-o", "expat")


# ---- what is run of each, in a folder of its own, and what is known of it


class Trial:
    """A program, with a folder for each of the two that run it, and what they do."""

    def __init__(self, name, program, rrs, room, sources):
        self.name, self.program, self.rrs, self.room = name, program, rrs, room
        self.sources = sources
        self.said = {"qemu": "", "own": ""}
        self.wrong = []
        self.folders = {}
        for of in self.said:
            self.folders[of] = room / of / name
            self.folders[of].mkdir(parents=True)
            places(name, self.folders[of], sources)

    def both(self, wanted, *words, given=None):
        """Runs the program by both, and keeps what it prints, what is on standard error, and its
        status."""
        for of, folder in self.folders.items():
            command, env = [self.rrs, "exec", "--files", "."], None
            if of == "qemu":
                command, env = [shutil.which("qemu-riscv32")], {}
            input_text = text_of(folder / given) if given else ""
            done = run(*command, self.program, *words, cwd=folder, env=env, input=input_text)
            errors = re.sub(r"(?m)^rrs exec: the system call .* is not served\n", "", done.errors)
            self.said[of] += (f"== {' '.join(words)}\n{done.output}-- standard error\n{errors}"
                              f"-- status {done.status}\n")
            if done.status != wanted:
                self.wrong.append(f"{words}: status {done.status} by {of}, and not {wanted}")

    def shows(self, *lines):
        """What it printed under qemu-riscv32 has lines."""
        self.wrong += [f"no line {line}" for line in lines
                       if not re.search(f"(?m){line}", self.said["qemu"])]


def tries_lua(trial):
    trial.both(7, "try.lua", "one", "two words")
    trial.shows(r"^6765\t3\t3$", r"^300\t53$", "^42\ttrue$")
    trial.both(1, "nothing.lua")


def tries_sqlite(trial):
    trial.both(1, "try.db", given="try.sql")  # one insertion fails
    trial.shows("^ok$", r"^3\.40\.1$", r"^400\|80200\|")
    trial.both(0, "-csv", "try.db", "SELECT count(*), sum(a) FROM t")
    trial.both(19, "try.db", "INSERT INTO t VALUES(2, NULL, 0)")


def tries_awk(trial):
    trial.both(3, "-f", "try.awk", "lines.txt")
    trial.shows("^ell 3 2 2 2$", "^5 lines$")
    # its authors' programs, but for those that start another one
    programs = [path for path in sorted(trial.folders["qemu"].glob("p.*"))
                if not re.search("system|sort", text_of(path))]
    assert len(programs) > 30
    for path in programs:
        trial.both(0, "-f", path.name, "test.countries")


def tries_bzip2(trial):
    for number in "123":
        trial.both(0, "-d", f"sample{number}.bz2")
        trial.both(0, "-k", f"-{number}", f"sample{number}")
        wanted = (trial.sources / f"bzip2/sample{number}.ref").read_bytes()
        if (trial.folders["qemu"] / f"sample{number}").read_bytes() != wanted:
            trial.wrong.append(f"sample{number} is another")
    trial.both(0, "-tvv", "sample1.bz2", "sample2.bz2", "sample3.bz2")
    trial.both(1, "nothing")


def tries_xz(trial):
    for words in (["-k", "-3", "text"], ["-lvv", "text.xz"], ["-dc", "text.xz"], ["-f", "text"],
                  ["-d", "text.xz"]):
        trial.both(0, *words)
    for status, kind in ((0, "good"), (1, "bad")):
        names = sorted(path.name for path in trial.folders["qemu"].glob(f"{kind}-*"))
        assert len(names) > 20
        trial.both(status, "-t", *names)


def tries_sed(trial):
    trial.both(0, "-f", "try.sed", "text")
    trial.shows("^3: number three$", "^gone: 2$", "^2-7 lines$")
    trial.both(0, "-n", "-E", "-i.kept", r"s/^(.)(.*)$/\2 \1/; /1/!p", "text")
    trial.both(0, "-s", "-n", "$=", "text", "text.kept")
    trial.both(0, "-z", r"s/\n/;/g", "text.kept")
    trial.both(1, "s/(/", "text")
    trial.both(2, "p", "nothing")
    trial.both(3, "-n", "5{p;q3}", "text.kept")


def tries_gzip(trial):
    for words in (["-k", "-9", "text"], ["-lv", "text.gz"], ["-dc", "text.gz"], ["-t", "text.gz"]):
        trial.both(0, *words)
    trial.both(0, "-n", "-1", given="text")
    trial.both(0, "-f", "text")
    trial.both(0, "-dv", "text.gz")
    trial.both(1, "-d", "broken.gz")
    trial.both(1, "nothing")
    trial.both(1, "-k", "text.gz.gz", "text")


def tries_pngtest(trial):
    trial.both(0)
    trial.shows("^ libpng passes test$")


def tries_tree(trial):
    trial.both(0)
    trial.shows(r"^\|   `-- inner$", "^`-- to -> none/inner$", "^4 directories, 4 files$")
    trial.both(0, "-a", "-p", "-s", "-i", "-f", "none")
    trial.both(0, "-J", "-d")
    trial.both(2, "nothing")


def tries_expat(trial):
    trial.both(0)
    trial.shows("^100%: Checks: [0-9]*, Failed: 0$")


def places(name, folder, sources):
    """Has the files of a program in a folder."""
    patterns = {"lua": [HERE / "try.lua", HERE / "module.lua"], "sqlite": [HERE / "try.sql"],
                "awk": [HERE / "try.awk", *sources.glob("original-awk/testdir/p.*"),
                        sources / "original-awk/testdir/test.countries"],
                "bzip2": sources.glob("bzip2/sample[123].bz2"),
                "xz": sources.glob("xz-utils/tests/files/*.xz"),
                "pngtest": [sources / "libpng1.6/pngtest.png"], "sed": [HERE / "try.sed"]}
    for path in patterns.get(name, []):
        shutil.copy(path, folder)
    if name == "awk":
        (folder / "lines.txt").write_text("1:a\n22:b\n# 7:c\n3:a\n1005:d e\n")
    if name in ("xz", "sed", "gzip"):
        count = 27 if name == "sed" else 30000
        numbers = "".join(f"{number}\n" for number in range(1, count + 1))
        (folder / "text").write_text(numbers)
    if name == "gzip":
        whole = gzip.compress(numbers.encode(), mtime=0)
        (folder / "whole.gz").write_bytes(whole)
        (folder / "broken.gz").write_bytes(whole[:9000])
    if name == "tree":
        for path in ("none/deeper", "some"):
            (folder / path).mkdir(parents=True)
        for path in ("none/inner", "none/.hidden", "some/one", "some/two"):
            (folder / path).touch()
        (folder / "to").symlink_to("none/inner")
    # what has a time of its own keeps it where it is compressed
    for path in folder.rglob("*"):
        if path.is_file() and not path.is_symlink():
            os.utime(path, (LONG_AGO, LONG_AGO))


def listed(folder):
    """The files of a folder: their rights, sizes, bytes, and the times that they had before."""
    seen = {}
    for path in sorted(folder.rglob("*")):
        told = path.lstat()
        is_file = path.is_file() and not path.is_symlink()
        is_old = is_file and told.st_mtime < LONG_AGO + 86400 * 365
        seen[str(path.relative_to(folder))] = (
            oct(told.st_mode), None if path.is_dir() else told.st_size,
            path.read_bytes() if is_file else None, told.st_mtime_ns if is_old else None)
    return seen


# ---- how


@pytest.fixture(scope="module")
def sources(once, request):
    """The folder of the sources."""
    names = [name for name in SOURCES if name != "expat" or request.config.getoption("hours")]

    def fetch(room):
        packages = [package for name in names for package in SOURCES[name]]
        done = run(ROOT / ".ci/source", room, *packages)
        if done.status:
            (room / "missing").write_text(done.output.strip())
    room = once("debian", fetch)
    if (room / "missing").exists():
        missing(f"not built: {(room / 'missing').read_text()}")
    return room


@pytest.fixture
def program_of(once, sources):
    """Builds a program: program_of(NAME)."""
    def build(name):
        room = once(f"debian-{name}", lambda room: globals()[f"build_{name}"](Build(sources, room)))
        return room / name
    return build


def compare(trial):
    """Runs all that is to be run of a program, and compares."""
    globals()[f"tries_{trial.name}"](trial)
    same(trial.said["own"], trial.said["qemu"], trial.name)
    seen, wanted = (listed(trial.folders[of]) for of in ("own", "qemu"))
    differs = [name for name in {*seen, *wanted} if seen.get(name) != wanted.get(name)]
    assert not differs, "the files then"
    assert not trial.wrong


@pytest.mark.parametrize("name", [pytest.param(name, marks=pytest.mark.hours)
                                  if name == "expat" else name for name in SOURCES])
def test_debian(rrs, program_of, sources, tmp_path, name):
    compare(Trial(name, program_of(name), rrs, tmp_path, sources))


@pytest.mark.planted
@pytest.mark.parametrize("before, after", [(":", "echo more"), (":", "status=$((status + 1))"),
                                           ("echo more >more", ":")],
                         ids=["printed", "ended", "left"])
def test_another_rrs(rrs, program_of, sources, tmp_path, before, after):
    """An rrs that prints more, ends otherwise, or leaves a file."""
    other = instead(tmp_path / "bin/rrs", rrs, after, before)
    with pytest.raises(AssertionError):
        compare(Trial("bzip2", program_of("bzip2"), other, tmp_path, sources))


@pytest.mark.planted
def test_what_does_not_build(sources, tmp_path):
    """A program whose source is not there is not built."""
    build = Build(sources, tmp_path)
    with pytest.raises(AssertionError, match="status 1"):
        build.cc("-O1", "none.c", "-o", "none")


@pytest.mark.planted
@pytest.mark.parametrize("name, change", [
    ("rights", lambda file: file.chmod(0o600)), ("bytes", lambda file: file.write_text("other")),
    ("time", lambda file: os.utime(file, (LONG_AGO + 1, LONG_AGO + 1))),
    ("none", lambda file: file.unlink())])
def test_other_files(tmp_path, name, change):
    """Files that differ are told apart."""
    places("sed", tmp_path, tmp_path)
    seen = listed(tmp_path)
    assert listed(tmp_path) == seen and set(seen) == {"text", "try.sed"}
    change(tmp_path / "text")
    assert listed(tmp_path) != seen
