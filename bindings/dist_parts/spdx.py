#!/usr/bin/env python3
"""Writes the list of the parts of the archive in SPDX 2.3, as a file of tags and values.

usage: spdx.py NAME VERSION NOTICE FOLDER

FOLDER is the folder of the archive. The list, FOLDER/share/doc/rrs/rrs.spdx, has each of its files
but itself and the checksums, with the checksum of each, the copyright of NOTICE, and what is linked.
Its date is SOURCE_DATE_EPOCH.
"""
import hashlib
import os
import sys
import time
from pathlib import Path

NAME, VERSION, NOTICE, FOLDER = sys.argv[1:]
OWN = "Apache-2.0"
LIST = "share/doc/rrs/rrs.spdx"

# what is linked: its identifier, its name, how, and what is said of it
LINKED = [
    ("rattle", "the library of Rattle", "STATIC_LINK",
     "Of the toolchain that built the programs and the libraries, which names no licence of it."),
    ("glibc", "glibc", "DYNAMIC_LINK",
     "Of the system, where it is LGPL-2.1-or-later."),
]


def files():
    """The files of the archive that the list has: their paths and their bytes."""
    for path in sorted(Path(FOLDER).rglob("*")):
        name = path.relative_to(FOLDER).as_posix()
        if path.is_file() and not path.is_symlink() and name not in (LIST, "SHA256SUMS"):
            yield name, path.read_bytes()


def package(identifier, name, licence, copyright_text, **more):
    """What is said of a package."""
    told = {"PackageName": name, "SPDXID": f"SPDXRef-{identifier}", **more,
            "PackageDownloadLocation": "NOASSERTION", "PackageLicenseConcluded": licence,
            "PackageLicenseDeclared": licence, "PackageCopyrightText": copyright_text}
    return [f"{tag}: {value}" for tag, value in told.items()]


def of_file(number, name, data):
    """What is said of a file."""
    return [f"FileName: ./{name}", f"SPDXID: SPDXRef-file-{number}",
            f"FileChecksum: SHA1: {hashlib.sha1(data).hexdigest()}",
            f"FileChecksum: SHA256: {hashlib.sha256(data).hexdigest()}",
            f"LicenseConcluded: {OWN}", "LicenseInfoInFile: NOASSERTION",
            "FileCopyrightText: NOASSERTION"]


def paragraphs(all_files, notice):
    """The paragraphs of the list."""
    sums = "".join(sorted(hashlib.sha1(data).hexdigest() for _, data in all_files))
    code = hashlib.sha1(sums.encode()).hexdigest()
    date = time.strftime("%Y-%m-%dT%H:%M:%SZ", time.gmtime(int(os.environ["SOURCE_DATE_EPOCH"])))
    yield ["SPDXVersion: SPDX-2.3", "DataLicense: CC0-1.0", "SPDXID: SPDXRef-DOCUMENT",
           f"DocumentName: {NAME}", f"DocumentNamespace: https://spdx.org/spdxdocs/{NAME}-{code}",
           "Creator: Organization: the rrs maintainers", f"Created: {date}"]
    yield package("rrs", "rrs", OWN, f"<text>{notice.strip()}</text>", PackageVersion=VERSION,
                  FilesAnalyzed="true",
                  PackageVerificationCode=f"{code} (excludes: ./{LIST}, ./SHA256SUMS)")
    for number, (name, data) in enumerate(all_files, 1):
        yield of_file(number, name, data)
    for identifier, name, _, comment in LINKED:
        yield package(identifier, name, "NOASSERTION", "NOASSERTION", FilesAnalyzed="false",
                      PackageComment=f"<text>{comment}</text>")
    yield ["Relationship: SPDXRef-DOCUMENT DESCRIBES SPDXRef-rrs",
           *(f"Relationship: SPDXRef-rrs {how} SPDXRef-{other}" for other, _, how, _ in LINKED)]


def main():
    notice = Path(NOTICE).read_text(encoding="utf-8")
    text = "\n\n".join("\n".join(lines) for lines in paragraphs(list(files()), notice))
    Path(FOLDER, LIST).write_text(text + "\n", encoding="utf-8")


main()
