#!/usr/bin/env python3
"""Makes the wheel of rrs for Python, with the library in it, so that it needs no build.

usage: wheel.py VERSION MACHINE PYTHON LIBRARY ROOT FOLDER

PYTHON is the folder of rrs.py and of its README, ROOT that of LICENSE and NOTICE. An index takes the
wheel as manylinux2014 where the library runs on each processor of x86-64 and needs no later C library
than that; else it is linux_x86_64, which no index takes, and this says so.
"""
import base64
import hashlib
import os
import re
import subprocess
import sys
import zipfile

VERSION, MACHINE, PYTHON, LIBRARY, ROOT, FOLDER = sys.argv[1:]
INFO = f"rrs-{VERSION}.dist-info"
# instructions that the first processors of x86-64 do not have
LATER = re.compile(
    r"\t(v[a-z0-9]+|popcnt|[lt]zcnt|movbe|crc32[a-z]?|andn|bextr|bls[a-z]+|mulx|pdep|pext|rorx|"
    r"s[ah][lr]x|adcx|adox|aes[a-z0-9]+|pclmulqdq|sha\d[a-z0-9]+|lddqu|mov(d|sh|sl)dup|"
    r"(h(add|sub)|addsub)p[sd]|p(shufb|hadd|hsub|abs|sign|alignr|maddubsw|mulhrsw)[a-z]*|"
    r"p(blendvb|blendw|cmpeqq|cmpgtq|extr[bdq]|insr[bdq]|max(sb|sd|uw|ud)|min(sb|sd|uw|ud)|mov[sz]x[a-z]+|"
    r"mul(dq|ld)|ackusdw|test|hminposuw|cmp[ei]str[im])|blendv?p[sd]|round[ps][sd]|dpp[sd]|"
    r"insertps|extractps|mpsadbw|movntdqa|cmpxchg16b)\b")


def tag():
    """The tag of the platform that the library runs on."""
    symbols = subprocess.run(["objdump", "-T", LIBRARY], capture_output=True, text=True, check=True)
    libc = max(((int(a), int(b)) for a, b in re.findall(r"GLIBC_(\d+)\.(\d+)", symbols.stdout)),
               default=(2, 0))
    code = subprocess.run(["objdump", "-d", "--no-show-raw-insn", LIBRARY], capture_output=True,
                          text=True, check=True).stdout
    later = LATER.search(code)
    if libc <= (2, 17) and not later:
        return f"py3-none-manylinux2014_{MACHINE}"
    why = f"needs {later.group(1)}" if later else f"needs glibc {libc[0]}.{libc[1]}"
    print(f"the wheel is for linux_{MACHINE}, and no index takes it: the library {why}")
    return f"py3-none-linux_{MACHINE}"


def metadata():
    """What an index shows."""
    with open(os.path.join(PYTHON, "README.md"), encoding="utf-8") as file:
        text = file.read()
    return f"""Metadata-Version: 2.1
Name: rrs
Version: {VERSION}
Summary: A RISC-V simulator kit, RV32IM, proved against its table
Author: the rrs maintainers
License: Apache-2.0
License-File: LICENSE
License-File: NOTICE
Keywords: risc-v,simulator,assembler,rvfi,verification
Classifier: License :: OSI Approved :: Apache Software License
Classifier: Operating System :: POSIX :: Linux
Classifier: Programming Language :: Python :: 3
Classifier: Topic :: System :: Emulators
Classifier: Topic :: Scientific/Engineering :: Electronic Design Automation (EDA)
Classifier: Typing :: Typed
Requires-Python: >=3.9
Description-Content-Type: text/markdown

{text}"""


def read(*path):
    with open(os.path.join(*path), "rb") as file:
        return file.read()


def contents(platform):
    """The files of the wheel, but the record of them."""
    yield "rrs/__init__.py", read(PYTHON, "rrs.py")
    yield "rrs/py.typed", b""
    yield "rrs/librrs.so", read(LIBRARY)
    yield f"{INFO}/METADATA", metadata().encode()
    yield f"{INFO}/LICENSE", read(ROOT, "LICENSE")
    yield f"{INFO}/NOTICE", read(ROOT, "NOTICE")
    wheel = f"Wheel-Version: 1.0\nGenerator: rrs\nRoot-Is-Purelib: false\nTag: {platform}\n"
    yield f"{INFO}/WHEEL", wheel.encode()


def main():
    platform = tag()
    record = []
    path = os.path.join(FOLDER, f"rrs-{VERSION}-{platform}.whl")
    with zipfile.ZipFile(path, "w", zipfile.ZIP_DEFLATED) as wheel:
        def put(name, data):
            entry = zipfile.ZipInfo(name)
            entry.external_attr = 0o644 << 16
            entry.compress_type = zipfile.ZIP_DEFLATED
            wheel.writestr(entry, data)

        for name, data in contents(platform):
            put(name, data)
            digest = base64.urlsafe_b64encode(hashlib.sha256(data).digest()).rstrip(b"=").decode()
            record.append(f"{name},sha256={digest},{len(data)}")
        put(f"{INFO}/RECORD", "\n".join([*record, f"{INFO}/RECORD,,", ""]))


main()
