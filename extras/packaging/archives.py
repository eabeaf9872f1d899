"""Packages as files: a tar file, and a .deb, the same byte for byte when they are made again."""
from __future__ import annotations

import hashlib
import io
import os
import subprocess
import tarfile
import tempfile

import contents
from contents import Built, Entries, Entry, Machine, NotMade


def tar(entries: Entries, top: str, when: int) -> bytes:
    """A tar file: in order of names, of owner 0, and of one moment."""
    out = io.BytesIO()
    with tarfile.open(fileobj=out, mode="w", format=tarfile.USTAR_FORMAT) as file:
        for path in contents.folders_of({f"{top}/{name}": entry for name, entry in entries.items()}):
            info = tarfile.TarInfo(path)
            info.type, info.mode, info.mtime = tarfile.DIRTYPE, 0o755, when
            file.addfile(info)
        for path, entry in sorted(entries.items()):
            info = tarfile.TarInfo(f"{top}/{path}")
            info.mtime, info.mode, info.size = when, 0o755 if entry.is_run else 0o644, len(entry.data)
            if entry.leads_to is not None:
                info.type, info.linkname, info.mode = tarfile.SYMTYPE, entry.leads_to, 0o777
            file.addfile(info, io.BytesIO(entry.data))
    return contents.packed(out.getvalue())


def control(entries: Entries, machine: Machine, version: str, libc: str | None) -> bytes:
    text = contents.read("extras/packaging/control").decode()
    values = {
        "VERSION": version,
        "ARCHITECTURE": machine.debian,
        "LIBC": f"libc6 (>= {libc}), " if libc else "",
        "SIZE": str(sum(len(entry.data) // 1024 + 1 for entry in entries.values())),
    }
    for name, value in values.items():
        text = text.replace(f"@{name}@", value)
    return text.encode()


def sums(entries: Entries) -> bytes:
    lines = [
        f"{hashlib.md5(entry.data, usedforsecurity=False).hexdigest()}  {name}\n"
        for name, entry in sorted(entries.items())
        if entry.leads_to is None
    ]
    return "".join(lines).encode()


def write_deb(built: Built, machine: Machine, path: str) -> None:
    version, when = contents.newest()
    entries = contents.for_debian(built)
    head = {
        "DEBIAN/control": Entry(control(entries, machine, version, contents.least_libc(built.program))),
        "DEBIAN/md5sums": Entry(sums(entries)),
    }
    with tempfile.TemporaryDirectory() as folder:
        os.umask(0o022)
        os.chmod(folder, 0o755)
        contents.write_tree({**entries, **head}, folder, when)
        for place, _, _ in os.walk(folder, topdown=False):
            os.utime(place, (when, when))
        # One thread: with more the bytes would depend on the machine.
        environment = {**os.environ, "SOURCE_DATE_EPOCH": str(when), "DPKG_DEB_THREADS_MAX": "1"}
        done = subprocess.run(
            ["dpkg-deb", "--root-owner-group", "-Zxz", "--build", folder, path],
            capture_output=True, text=True, check=False, env=environment,
        )
    if done.returncode:
        raise NotMade(" ".join(done.stderr.split()))
