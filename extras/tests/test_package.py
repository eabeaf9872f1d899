"""extras/package: the same files each time, no word of lintian, and an installation that leaves nothing."""
from __future__ import annotations

import atexit
import functools
import hashlib
import json
import os
import platform
import re
import shutil
import stat
import subprocess
import sys
import tarfile
import tempfile
import unittest

from support import EXAMPLES, EXTRAS, TOP, ToolTest, needs

sys.path.append(os.path.join(EXTRAS, "packaging"))
import archives  # noqa: E402
import contents  # noqa: E402

# What the package needs, and what a user has who reads manual pages and completes words.
THERE = ["libc6", "libc-bin", "python3", "dash", "bash", "coreutils", "grep", "sed", "man-db", "bash-completion"]
# The number of the processor in the head of a program, and how a page of Markdown names a file.
AARCH64 = 183
LINK = re.compile(r"\]\(([^)#:\s]+)(?:#[^)]*)?\)")
UNNEEDED = re.compile(
    r"/usr/share/(doc|locale|info|lintian|man|i18n|bug)/|/usr/lib/python3\.\d+/(test|idlelib|lib2to3|pydoc_data)/"
)


def make_dist(folder: str, program: bytes) -> None:
    """A folder as dist/ is, with a page, and with a program as that of both machines: for ARM its head says so."""
    os.mkdir(folder)
    files = {"uxn-linux-x86_64": program, "uxn-linux-aarch64": program[:18] + AARCH64.to_bytes(2, "little") + program[20:]}
    files["uxn.html"] = b"<!doctype html>\n"
    for name, data in files.items():
        with open(os.path.join(folder, name), "wb") as file:
            file.write(data)
    sums = {name: hashlib.sha256(data).hexdigest() for name, data in files.items()}
    with open(os.path.join(folder, "manifest.json"), "w", encoding="utf-8") as manifest:
        json.dump({"version": "0", "files": sums}, manifest)


@functools.cache
def packages() -> str:
    """A folder with the packages, which are made once for all tests, and with the dist/ that they are made of."""
    folder = tempfile.mkdtemp(prefix="uxn-packages-")
    atexit.register(shutil.rmtree, folder, ignore_errors=True)
    with open(os.environ["UXN"], "rb") as file:
        make_dist(os.path.join(folder, "dist"), file.read())
    words = [os.path.join(EXTRAS, "package"), "--dist", os.path.join(folder, "dist"), "--out", folder]
    done = subprocess.run(words, capture_output=True, text=True, check=False)
    if done.returncode:
        raise AssertionError(done.stderr)
    return folder


@needs("dpkg-deb")
@unittest.skipUnless(platform.machine() == "x86_64", "the packages are tried on x86-64")
class PackageTest(ToolTest):
    def setUp(self) -> None:
        super().setUp()
        folder = packages()
        with open(os.path.join(TOP, "VERSION"), encoding="ascii") as file:
            self.version = file.read().strip()
        self.dist = os.path.join(folder, "dist")
        self.tar, self.deb = self.tar_and_deb("x86_64", "amd64", folder)
        self.all = [self.tar, self.deb, *self.tar_and_deb("aarch64", "arm64", folder)]

    def tar_and_deb(self, machine: str, debian: str, folder: str) -> tuple[str, str]:
        return (
            os.path.join(folder, f"uxn-{self.version}-{machine}.tar.gz"),
            os.path.join(folder, f"uxn_{self.version}_{debian}.deb"),
        )


def sum_of(path: str) -> str:
    with open(path, "rb") as file:
        return hashlib.sha256(file.read()).hexdigest()


class Files(PackageTest):
    def package(self, dist: str, out: str, **environment: str) -> str:
        return self.succeed(os.path.join(EXTRAS, "package"), "--dist", dist, "--out", out, **environment)

    def test_they_are_the_same_when_made_again(self) -> None:
        mask = os.umask(0o077)
        self.addCleanup(os.umask, mask)
        said = self.package(self.dist, "again", TZ="XXX-5", LC_ALL="C", SOURCE_DATE_EPOCH="5")
        os.umask(mask)
        self.assertEqual(said.splitlines(), [f"again/{os.path.basename(path)}" for path in self.all])
        for path in self.all:
            self.assertEqual(sum_of(path), sum_of(self.path(f"again/{os.path.basename(path)}")), path)
        make_dist(self.path("dist"), self.read(".bin/uxn") + b"\0")
        self.package("dist", "other")
        for path in self.all:
            self.assertNotEqual(sum_of(path), sum_of(self.path(f"other/{os.path.basename(path)}")), path)

    def test_each_machine_has_its_program(self) -> None:
        for machine, debian in (("x86_64", "amd64"), ("aarch64", "arm64")):
            tar, deb = self.tar_and_deb(machine, debian, packages())
            with open(os.path.join(self.dist, f"uxn-linux-{machine}"), "rb") as file:
                program = file.read()
            self.assertEqual(self.succeed("dpkg-deb", "-f", deb, "Architecture"), f"{debian}\n")
            self.succeed("dpkg-deb", "-x", deb, machine)
            self.assertEqual(self.read(f"{machine}/usr/lib/uxn/uxn"), program)
            with tarfile.open(tar) as archive:
                found = archive.extractfile(f"uxn-{self.version}-{machine}/lib/uxn/uxn")
                self.assertEqual(found and found.read(), program)
                found = archive.extractfile(f"uxn-{self.version}-{machine}/share/doc/uxn/uxn.html")
                self.assertEqual(found and found.read(), b"<!doctype html>\n")
            self.assertEqual(self.read(f"{machine}/usr/share/doc/uxn/uxn.html"), b"<!doctype html>\n")

    def test_the_tar_file(self) -> None:
        with tarfile.open(self.tar) as file:
            members = file.getmembers()
        self.assertEqual(
            {(member.uid, member.gid, member.uname, member.gname) for member in members}, {(0, 0, "", "")}
        )
        self.assertEqual({oct(member.mode) for member in members if member.isfile()}, {"0o755", "0o644"})
        self.assertEqual(len({member.mtime for member in members}), 1)
        self.assertEqual([member.name for member in members if not member.name.startswith(f"uxn-{self.version}-x86_64")], [])
        self.succeed("mkdir", "local")
        self.succeed("tar", "-C", "local", "--strip-components=1", "-xzf", self.tar)
        shutil.copytree(EXAMPLES, self.path("examples"))
        path = os.pathsep.join([self.path("local/bin"), os.environ["PATH"]])
        self.assertEqual(self.succeed("uxn", "play", "examples/hello.tal", PATH=path), "Hello, Uxn!\n")
        self.assertEqual(self.succeed("uxn-sandbox", "play", "examples/hello.tal", PATH=path), "Hello, Uxn!\n")
        for name in sorted(os.listdir(self.path("local/bin"))):
            if name != "uxn":
                self.assertIn(f"usage: {name}", self.succeed(name, "--help", PATH=path))
        self.succeed(self.path("local/share/uxn/dropins/uxnasm"), "examples/hello.tal", "h.rom", PATH=path)
        # The folder of the test has a link out of it, which uxncli refuses.
        call = 'cd examples && exec "$0" ../h.rom'
        self.assertEqual(
            self.succeed("sh", "-c", call, self.path("local/share/uxn/dropins/uxncli"), PATH=path), "Hello, Uxn!\n"
        )
        self.assertEqual(self.succeed("uxn", "--version", PATH=path), f"uxn {self.version}\n")
        self.assertIn("uxn play SRC", self.succeed("uxn", "--help", PATH=path))

    def test_removing_leaves_what_was_there(self) -> None:
        """Neither a file nor a folder of the tar file is left, and what others have there stays."""
        self.write("local/share/man/man1/other.1", "")
        self.succeed("tar", "-C", "local", "--strip-components=1", "-xzf", self.tar)
        self.assertTrue(os.path.isdir(self.path("local/share/doc/uxn/docs")))
        self.succeed("local/share/uxn/remove")
        left = [os.path.join(place, name) for place, _, names in os.walk(self.path("local")) for name in [".", *names]]
        man = self.path("local/share/man/man1")
        folders = [self.path("local"), self.path("local/share"), self.path("local/share/man"), man]
        self.assertEqual(sorted(left), sorted([*(f"{folder}/." for folder in folders), f"{man}/other.1"]))

    def test_links_of_its_pages_lead_to_what_is_installed(self) -> None:
        self.succeed("dpkg-deb", "-x", self.deb, "to")
        top = self.path("to/usr/share/doc/uxn")
        pages = [os.path.join(place, name) for place, _, names in os.walk(top) for name in names if name.endswith(".md")]
        self.assertGreater(len(pages), 25)
        links, lost = 0, []
        for page in pages:
            with open(page, encoding="utf-8") as file:
                found = LINK.findall(re.sub(r"(?ms)^```.*?^```|`[^`\n]*`", "", file.read()))
            links += len(found)
            lost += [(page, link) for link in found if not os.path.exists(os.path.join(os.path.dirname(page), link))]
        self.assertEqual(lost, [])
        self.assertGreater(links, 100)

    def test_links_elsewhere_lose_their_targets(self) -> None:
        page = "[a](there.md#x) [`b`](../gone.md) ![p](gone.png) [c](https://x.example/) [d [e] f](gone/#y) [g](#here)"
        text = contents.linked("docs/a.md", page, {"docs/there.md"})
        self.assertEqual(text, "[a](there.md#x) `b` ![p](gone.png) [c](https://x.example/) d [e] f [g](#here)")

    def test_the_c_library(self) -> None:
        least = contents.least_libc(self.read(".bin/uxn"))
        self.assertIn(f"libc6 (>= {least}), ", self.succeed("dpkg-deb", "-f", self.deb, "Depends"))
        with open(os.path.join(TOP, "docs", "install.md"), encoding="utf-8") as file:
            self.assertIn(f"glibc {least} ", file.read())
        self.assertEqual(contents.least_libc(b"\0GLIBC_2.4\0GLIBC_2.17\0GLIBC_2.2.5\0"), "2.17")
        self.assertIsNone(contents.least_libc(b"\x7fELF GLIBC_2.4"))
        control = archives.control({}, contents.MACHINES[1], "1.0", None)
        self.assertRegex(control, rb"\nArchitecture: arm64\n(.*\n)*Depends: python3:any ")

    @needs("objdump")
    def test_the_c_library_as_objdump_finds_it(self) -> None:
        wanted = re.findall(r"GLIBC_(\d+)\.(\d+)", self.succeed("objdump", "-T", self.program))
        least = max((int(major), int(minor)) for major, minor in wanted)
        self.assertEqual("%d.%d" % least, contents.least_libc(self.read(".bin/uxn")))

    def test_wrong_calls(self) -> None:
        tool = os.path.join(EXTRAS, "package")
        self.refuse(2, tool, "x")
        self.assertIn("no uxn-linux-x86_64", self.refuse(1, tool, "--dist", "gone"))
        make_dist(self.path("dist"), b"a program")
        self.write("dist/uxn-linux-aarch64", b"another program")
        line = self.refuse(1, tool, "--dist", "dist", "--out", "out")
        self.assertEqual(line, "package: dist/uxn-linux-aarch64: it is not the file that manifest.json names")

    def test_a_page_that_is_missing(self) -> None:
        make_dist(self.path("dist"), b"a program")
        os.remove(self.path("dist/uxn.html"))
        line = self.refuse(1, os.path.join(EXTRAS, "package"), "--dist", "dist", "--out", "out")
        self.assertEqual(line, "package: dist: it has no uxn.html with its manifest")
        self.assertFalse(os.path.exists(self.path("out")))

    @needs("lintian")
    def test_lintian_is_silent(self) -> None:
        done = self.call("lintian", "--tag-display-limit", "0", "--allow-root", "-I", "--pedantic", self.deb)
        self.assertEqual((done.returncode, done.stdout.decode()), (0, ""))
        with open(os.path.join(EXTRAS, "packaging", "overrides"), encoding="utf-8") as file:
            lines = [line for line in file.read().splitlines() if line]
        for above, line in zip(["", *lines], lines):
            self.assertTrue(line.startswith("#") or above.startswith("#"), f"{line}: no line above says why")


class Editors(PackageTest):
    def setUp(self) -> None:
        super().setUp()
        self.succeed("dpkg-deb", "-x", self.deb, "to")
        self.write("a.tal", "@main nothing\n")

    @needs("vim")
    def test_vim_looks_there(self) -> None:
        self.call("vim", "-es", "-u", "NONE", "-c", "call writefile([&rtp], 'rtp')", "-c", "qa!")
        self.assertIn("/usr/share/vim/vimfiles", self.read("rtp").decode().strip().split(","))
        self.call(
            "vim",
            "-es",
            "-u",
            "NONE",
            "-N",
            "--cmd",
            "set rtp^=to/usr/share/vim/vimfiles",
            "--cmd",
            "filetype plugin indent on",
            "--cmd",
            "syntax on",
            "-c",
            "compiler uxn",
            "-c",
            "call writefile([&ft, &makeprg, b:current_syntax], 'said')",
            "-c",
            "qa!",
            "a.tal",
        )
        self.assertRegex(self.read("said"), rb"^uxntal\nuxn-check.*\nuxntal\n$")

    @needs("nvim")
    def test_neovim_looks_there(self) -> None:
        """In the files of both packages, and not in the folder of Vim's files, which is not where Neovim looks."""
        os.mkdir(self.path("local"))
        self.succeed("tar", "-C", "local", "--strip-components=1", "-xzf", self.tar)
        said = "[&ft, &indentexpr, get(b:, 'current_syntax', '')]"
        words = ["nvim", "--headless", "-n", "-i", "NONE", "-u", "NORC", "-c", f"call writefile({said}, 'said')", "-c", "qa!"]
        for share, is_found in (("to/usr/share", True), ("local/share", True), ("to/usr/share/vim/vimfiles", False)):
            self.call(*words, "a.tal", XDG_DATA_DIRS=self.path(share), XDG_CONFIG_HOME=self.folder, XDG_DATA_HOME=self.folder)
            found = re.fullmatch(rb"uxntal\n\S+\nuxntal\n", self.read("said"))
            self.assertEqual(found is not None, is_found, share)

    @needs("emacs")
    def test_emacs_looks_there(self) -> None:
        start = '(progn (setq user-emacs-directory "./none/") (require \'package) %s (package-activate-all))'
        said = self.call(
            "emacs", "--batch", "--eval", start % "", "--eval", "(princ package-directory-list)"
        ).stdout.decode()
        self.assertIn("/usr/share/emacs/site-lisp/elpa", said)
        there = start % '(setq package-directory-list (list (expand-file-name "to/usr/share/emacs/site-lisp/elpa")))'
        self.assertEqual(
            self.succeed("emacs", "--batch", "--eval", there, "a.tal", "--eval", "(princ major-mode)"), "uxntal-mode"
        )
        self.assertEqual(
            self.succeed("emacs", "--batch", "a.tal", "--eval", "(princ major-mode)", EMACSLOADPATH=":"),
            "fundamental-mode",
        )


def installed(names: list[str]) -> list[str]:
    """These packages of the machine and what they depend on; a test is skipped where one is not there."""
    found, rest = [], list(names)
    while rest:
        name = rest.pop()
        done = subprocess.run(
            ["dpkg-query", "-W", "-f", "${db:Status-Status} ${Pre-Depends}, ${Depends}\n", name],
            capture_output=True,
            text=True,
            check=False,
        )
        status, _, depends = done.stdout.split("\n")[0].partition(" ")
        if status != "installed":
            if name in names:
                raise unittest.SkipTest(f"the package {name} is not installed")
            continue
        found.append(name)
        choices = [
            re.findall(r"[a-z0-9][a-z0-9.+-]+(?=[ :|,(]|$)", part.split("|")[0])[:1] for part in depends.split(",")
        ]
        rest += [it for choice in choices for it in choice if it not in found and it not in rest]
    return found


@unittest.skipUnless(os.getuid() == 0, "not root: nothing can be installed")
@needs("dpkg", "dpkg-query", "chroot")
class FreshRoot(PackageTest):
    """A root of its own, with the files of a few packages of this machine and their entries in its list."""

    def setUp(self) -> None:
        super().setUp()
        self.root = self.path("fresh")
        for name in (
            "usr/bin",
            "usr/sbin",
            "usr/lib",
            "usr/lib64",
            "tmp",
            "dev",
            "etc",
            "var/lib/dpkg/info",
            "var/lib/dpkg/updates",
            "root",
        ):
            os.makedirs(self.at(name))
        for name in ("bin", "sbin", "lib", "lib64"):
            os.symlink(f"usr/{name}", self.at(name))
        try:
            os.mknod(self.at("dev/null"), 0o666 | stat.S_IFCHR, os.makedev(1, 3))
        except PermissionError:
            self.skipTest("no device can be made here")
        os.chmod(self.at("dev/null"), 0o666)
        self.fill(installed(THERE))

    def at(self, name: str) -> str:
        return os.path.join(self.root, name)

    def fill(self, packages: list[str]) -> None:
        said = subprocess.run(["dpkg-query", "-L", *packages], capture_output=True, text=True, check=True).stdout
        for path in sorted({line for line in said.split("\n") if line.startswith("/") and not UNNEEDED.match(line)}):
            place = self.at(path[1:])
            if os.path.isdir(path) and not os.path.islink(path):
                os.makedirs(place, exist_ok=True)
            elif os.path.lexists(path) and not os.path.lexists(place):
                os.makedirs(os.path.dirname(place), exist_ok=True)
                shutil.copy2(path, place, follow_symlinks=False)
        with open(self.at("var/lib/dpkg/status"), "w", encoding="utf-8") as file:
            file.write(
                subprocess.run(["dpkg-query", "-s", *packages], capture_output=True, text=True, check=True).stdout
            )
        for name in packages:
            for kind in (name, f"{name}:amd64"):
                if os.path.exists(f"/var/lib/dpkg/info/{kind}.list"):
                    shutil.copy(f"/var/lib/dpkg/info/{kind}.list", self.at("var/lib/dpkg/info"))

    def dpkg(self, *words: str) -> subprocess.CompletedProcess[bytes]:
        return self.call("dpkg", f"--root={self.root}", "--force-unsafe-io", "--no-triggers", *words)

    def within(self, command: str, path: str = "/usr/bin") -> str:
        """What a command of the shell prints that is called in the root."""
        return self.succeed(
            "chroot",
            self.root,
            "/usr/bin/env",
            "-i",
            f"PATH={path}",
            "HOME=/root",
            "LC_ALL=C.UTF-8",
            "MANPAGER=cat",
            "MANWIDTH=78",
            "MANOPT=--nj",
            "/bin/bash",
            "-c",
            command,
        )

    def tree(self) -> set[tuple[str, int, int]]:
        """All that is in the root, but for the list of packages, the logs, and what Python keeps of its own modules."""
        found = set()
        for folder, folders, names in os.walk(self.root):
            if folder == self.at("var/lib"):
                folders.remove("dpkg")
            for name in (*folders, *names):
                at = os.lstat(os.path.join(folder, name))
                found.add(
                    (
                        os.path.relpath(os.path.join(folder, name), self.root),
                        at.st_mode,
                        0 if stat.S_ISDIR(at.st_mode) else at.st_size,
                    )
                )
        return {entry for entry in found if not re.match(r"var/log|usr/lib/python3[^/]*/(.*/)?__pycache__", entry[0])}

    def test_install_use_remove(self) -> None:
        before = self.tree()
        done = self.dpkg("-i", self.deb)
        self.assertEqual(done.returncode, 0, done.stderr)
        self.use()
        done = self.dpkg("--purge", "uxn")
        self.assertEqual(done.returncode, 0, done.stderr)
        self.assertEqual(self.tree() ^ before, set())
        self.assertIn("not found", self.within("uxn 2>&1 || true"))

    def use(self) -> None:
        examples = "cd /usr/share/doc/uxn/examples"
        self.assertEqual(self.within(f"{examples}; uxn play hello.tal"), "Hello, Uxn!\n")
        self.assertEqual(self.within(f"{examples}; uxn play fizzbuzz.tal | head -n 3"), "1\n2\nFizz\n")
        self.assertIn("Hello, Uxn!\n", self.within(f"{examples}; uxn-sandbox play hello.tal"))
        self.assertEqual(self.within("uxn --version; cd /; /bin/uxn --version"), f"uxn {self.version}\n" * 2)
        self.assertIn("uxn play SRC", self.within("uxn --help"))
        self.assertIn("\nSYNOPSIS\n", self.within("man uxn"))
        self.assertIn("uxn-script - ", self.within("man uxn-script"))
        self.assertIn("uxn-commands - ", self.within("man 5 uxn-commands"))
        self.assertIn("uxn-sandbox - ", self.within("man uxn-sandbox"))
        load = ". /usr/share/bash-completion/bash_completion; _completion_loader"
        self.assertEqual(
            self.within(f"{load} uxn; COMP_WORDS=(uxn asm a.tal --li) COMP_CWORD=3; _uxn uxn; echo $COMPREPLY"),
            "--listing\n",
        )
        self.assertEqual(
            self.within(
                f"{load} uxn-sandbox; COMP_WORDS=(uxn-sandbox --sec) COMP_CWORD=1; _uxn_sandbox uxn-sandbox;"
                " echo $COMPREPLY"
            ),
            "--seconds\n",
        )
        self.assertEqual(
            self.within("cd /usr/bin; for tool in uxn-*; do $tool --help | grep -q ^usage: || echo $tool; done"), ""
        )
        dropins = "/usr/share/uxn/dropins:/usr/bin"
        self.assertIn(
            "Assembled /tmp/h.rom in",
            self.within(f"{examples}; uxnasm hello.tal /tmp/h.rom; uxncli /tmp/h.rom; rm /tmp/h.*", dropins),
        )
        self.assertIn("not found", self.within("uxncli 2>&1 || true"))

    def test_what_it_needs_has_to_be_there(self) -> None:
        with open(self.at("var/lib/dpkg/status"), "w", encoding="utf-8") as file:
            file.write(
                subprocess.run(["dpkg-query", "-s", "libc6"], capture_output=True, text=True, check=True).stdout
            )
        done = self.dpkg("-i", self.deb)
        self.assertNotEqual(done.returncode, 0)
        self.assertIn(b"python3", done.stderr)
