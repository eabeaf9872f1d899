"""./install: what it puts beneath a prefix works from there, and --remove leaves what others have there."""
from __future__ import annotations

import atexit
import functools
import os
import platform
import shutil
import subprocess
import tempfile
import unittest

from support import EXAMPLES, TOP, ToolTest, needs
from test_package import make_dist

INSTALL = os.path.join(TOP, "install")


@functools.cache
def installed() -> str:
    """A prefix with an installation that tests copy or read, and beside it the dist/ that it is made of."""
    folder = tempfile.mkdtemp(prefix="uxn-installed-")
    atexit.register(shutil.rmtree, folder, ignore_errors=True)
    dist = os.path.join(folder, "dist")
    with open(os.environ["UXN"], "rb") as file:
        make_dist(dist, file.read())
    if platform.machine() == "aarch64":
        shutil.copy(os.path.join(dist, "uxn-linux-x86_64"), os.path.join(dist, "uxn-linux-aarch64"))
    prefix = os.path.join(folder, "prefix")
    done = subprocess.run([INSTALL, "--dist", dist, "--prefix", prefix], capture_output=True, text=True, check=False)
    if done.returncode:
        raise AssertionError(done.stderr)
    return prefix


@unittest.skipUnless(platform.machine() in ("x86_64", "aarch64") and platform.system() == "Linux", "dist/ has no program for it")
class Install(ToolTest):
    def setUp(self) -> None:
        super().setUp()
        shutil.copytree(os.path.join(os.path.dirname(installed()), "dist"), self.path("dist"))
        with open(os.path.join(TOP, "VERSION"), encoding="ascii") as file:
            self.version = file.read().strip()

    def install(self, *words: str) -> str:
        return self.succeed(INSTALL, "--dist", "dist", "--prefix", "a prefix", *words)

    def copy(self) -> None:
        shutil.copytree(installed(), self.path("a prefix"), symlinks=True)

    def names(self) -> set[str]:
        """All files and folders beneath the prefix."""
        found = set()
        for place, folders, names in os.walk(self.path("a prefix")):
            found |= {os.path.relpath(os.path.join(place, name), self.path("a prefix")) for name in (*folders, *names)}
        return found

    def test_install_use_remove(self) -> None:
        self.write("a prefix/bin/other", "")
        self.write("a prefix/share/uxn/other", "")
        self.assertIn(f"uxn {self.version} is installed in ", self.install())
        shutil.copytree(EXAMPLES, self.path("examples"))
        path = os.pathsep.join([self.path("a prefix/bin"), "/usr/bin", "/bin"])
        self.assertEqual(self.succeed("uxn", "play", "examples/hello.tal", PATH=path), "Hello, Uxn!\n")
        self.assertEqual(self.succeed("uxn", "--version", PATH=path), f"uxn {self.version}\n")
        for word in ("--help", "-h", "help"):
            self.assertIn("uxn play SRC", self.succeed("uxn", word, PATH=path))
        os.symlink(self.path("a prefix/bin/uxn"), self.path("link"))
        self.assertEqual(self.succeed("./link", "play", "examples/hello.tal"), "Hello, Uxn!\n")
        self.refuse(128, self.path("a prefix/bin/uxn"), "--no-such-word")
        self.install("--remove")
        self.assertEqual(self.names(), {"bin", "bin/other", "share", "share/uxn", "share/uxn/other"})

    def test_tools_call_past_the_wrapper(self) -> None:
        self.copy()
        path = os.pathsep.join([self.path("a prefix/bin"), "/usr/bin", "/bin"])
        self.write("a.tal", "|0100 BRK")
        self.write("a prefix/bin/uxn", f"#!/bin/sh\n: >'{self.path('ran')}'\n")
        del self.environment["UXN"]
        self.assertEqual(self.succeed("uxn-check", "a.tal", PATH=path), "")
        self.assertFalse(os.path.exists(self.path("ran")))
        os.remove(self.path("a prefix/lib/uxn/uxn"))
        self.call("uxn-check", "a.tal", PATH=path)
        self.assertTrue(os.path.exists(self.path("ran")))

    def test_an_older_installation_goes(self) -> None:
        self.copy()
        before = self.names()
        self.write("a prefix/share/uxn/old/file", "")
        with open(self.path("a prefix/share/uxn/files"), "a", encoding="utf-8") as file:
            file.write("share/uxn/old/\nshare/uxn/old/file\n")
        self.install()
        self.assertEqual(self.names(), before)

    @needs("man")
    def test_manual_pages_name_the_folder(self) -> None:
        words = ["man", "-P", "cat", "-M", os.path.join(installed(), "share/man"), "uxn"]
        done = self.call(*words, MANWIDTH="200", MANOPT="--nj")
        if b"minimized" in done.stdout + done.stderr:
            self.skipTest("man shows no pages here")
        self.assertIn(f"All pages are in {installed()}/share/doc/uxn/docs.", done.stdout.decode())

    def test_wrong_calls(self) -> None:
        self.refuse(2, INSTALL, "x")
        self.refuse(2, INSTALL, "--prefix")
        self.assertIn("there is no uxn in", self.refuse(1, INSTALL, "--remove", "--prefix", "gone"))
        self.assertIn("it has no uxn-linux-", self.refuse(1, INSTALL, "--dist", "gone", "--prefix", "to"))
        for machine in ("x86_64", "aarch64"):
            self.write(f"dist/uxn-linux-{machine}", self.read(".bin/uxn") + b"\0")
        self.assertIn("is not the file that manifest.json names", self.refuse(1, INSTALL, "--dist", "dist", "--prefix", "to"))
        self.assertFalse(os.path.exists(self.path("to")))
