"""Puts folders into archives, the same to the byte each time: names in order, no owner, and one time
for all, which SOURCE_DATE_EPOCH says.

pack.py tar OUT FOLDER         a .tar.gz of a folder, whose name is the first part of each name in it
pack.py wheel OUT FOLDER       a wheel of a folder that has all but RECORD
"""

import base64
import gzip
import hashlib
import os
import pathlib
import sys
import tarfile
import time
import zipfile

EPOCH = int(os.environ["SOURCE_DATE_EPOCH"])


def files_in(folder):
    return sorted(path for path in folder.rglob("*") if path.is_file() or path.is_symlink())


def make_tar(out, folder):
    def plain(entry):
        entry.uid = entry.gid = 0
        entry.uname = entry.gname = "root"
        entry.mtime = EPOCH
        entry.mode = 0o755 if entry.mode & 0o100 else 0o644
        return entry

    with open(out, "wb") as raw, gzip.GzipFile("", "wb", 9, raw, EPOCH) as packed:
        with tarfile.open(fileobj=packed, mode="w", format=tarfile.GNU_FORMAT) as archive:
            for path in files_in(folder):
                archive.add(path, path.relative_to(folder.parent), filter=plain)


def record_of(folder, record):
    """The lines of RECORD: the name, the hash and the size of each file (PEP 376, PEP 427)."""
    for path in files_in(folder):
        content = path.read_bytes()
        digest = base64.urlsafe_b64encode(hashlib.sha256(content).digest()).rstrip(b"=").decode()
        yield f"{path.relative_to(folder)},sha256={digest},{len(content)}\n"
    yield f"{record.relative_to(folder)},,\n"


def make_wheel(out, folder):
    (info,) = folder.glob("*.dist-info")
    record = info / "RECORD"
    record.write_text("".join(record_of(folder, record)))
    with zipfile.ZipFile(out, "w", zipfile.ZIP_DEFLATED) as archive:
        for path in [*(path for path in files_in(folder) if path != record), record]:
            entry = zipfile.ZipInfo(str(path.relative_to(folder)), time.gmtime(EPOCH)[:6])
            entry.external_attr = (0o755 if path.stat().st_mode & 0o100 else 0o644) << 16
            entry.compress_type = zipfile.ZIP_DEFLATED
            archive.writestr(entry, path.read_bytes())


def main():
    kind, out, folder = sys.argv[1:]
    {"tar": make_tar, "wheel": make_wheel}[kind](out, pathlib.Path(folder).resolve())


main()
