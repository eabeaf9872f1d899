"""Vim: colours, indentation, the compiler, and the language server by the client ALE, as docs/editors.md says."""
import glob
import os
import pty
import select
import shutil
import subprocess
import time
import unittest

from support import EXAMPLES, EXTRAS, TOP, ToolTest, needs

PROGRAMS = os.path.join(EXTRAS, "tests", "programs")
ALE = "/usr/share/vim/vimfiles/pack/dist-bundle/opt/ale"


def has_syntax() -> bool:
    if shutil.which("vim") is None:
        return False
    return "+syntax" in subprocess.run(["vim", "--version"], capture_output=True, text=True).stdout


def settings(heading: str, language: str) -> str:
    """The settings that docs/editors.md has beneath a heading, in its first block."""
    with open(os.path.join(TOP, "docs", "editors.md"), encoding="utf-8") as file:
        part = file.read().partition(f"\n## {heading}\n")[2].partition("\n## ")[0]
    found = part.partition(f"```{language}\n")[2].partition("\n```")[0]
    if not found:
        raise AssertionError(f"docs/editors.md has no block {language} beneath {heading}")
    return found


@needs("vim")
@unittest.skipUnless(has_syntax(), "this vim has no colours")
class Vim(ToolTest):
    def vim(self, name: str, *commands: str, **environment: str) -> None:
        """Runs Vim over a file with these commands and the files of extras/vim."""
        words = [
            "vim",
            "-es",
            "-u",
            "NONE",
            "-i",
            "NONE",
            "-N",
            "--cmd",
            f"set rtp^={EXTRAS}/vim",
            "--cmd",
            "filetype plugin indent on",
            "--cmd",
            "syntax on",
        ]
        for command in (*commands, "qa!"):
            words += ["-c", command]
        self.call(*words, name, **environment)

    def test_colours_and_the_faulty_word(self) -> None:
        names = [[2, 5], [2, 9], [2, 16], [3, 5], [3, 12], [3, 16], [4, 5]]
        os.mkdir(self.path("a folder"))
        for name in (self.path("a.tal"), "./b.tal", "a folder/c d.tal", f"../{os.path.basename(self.folder)}/e.tal"):
            self.write(name, '@main\n    ( a ( b ) "c )\n    LIT2rk #12 "text\n    &loop nothing BRK\n')
            self.vim(
                name,
                "compiler uxn",
                "silent make",
                'let at = [expand("%:t"), line("."), col(".")]',
                f'let at += map({names}, "synIDattr(synID(v:val[0], v:val[1], 1), \\"name\\")")',
                'call writefile([string(at)], "said")',
            )
            kinds = "Comment Nested Comment Opcode Number Text Label".split()
            self.assertEqual(
                self.read("said").decode().strip(),
                f"['{os.path.basename(name)}', 4, 11, " + ", ".join(f"'uxntal{kind}'" for kind in kinds) + "]",
            )

    def test_the_faulty_word_of_an_included_file(self) -> None:
        self.write("a.tal", "BRK\n~lib/b.tal")
        self.write("lib/b.tal", "LIT\n  #1")
        for program in ("uxn-check a.tal", "uxn asm a.tal --out o"):
            escaped = program.replace(" ", "\\ ")
            self.vim(
                "a.tal",
                "compiler uxn",
                f"set makeprg={escaped}",
                "silent make",
                'call writefile([string([expand("%:t"), line("."), col(".")])], "said")',
            )
            self.assertEqual(self.read("said").decode(), "['b.tal', 2, 3]\n")

    def test_indentation_from_nothing(self) -> None:
        self.write(
            "g.tal", "|0100 @main ( -> )\n#00\n&next\nINC DUP ?{\nPOP\n}\n#10 NEQ ?&next\n@other\n( a\n   b )\nBRK\n"
        )
        self.vim("g.tal", "set sw=4 et", "g/./normal! ==", "w")
        self.assertEqual(
            self.read("g.tal").decode(),
            "|0100 @main ( -> )\n    #00\n    &next\n        INC DUP ?{\n            POP\n        }\n"
            "        #10 NEQ ?&next\n@other\n    ( a\n   b )\n    BRK\n",
        )

    def test_what_is_indented_stays(self) -> None:
        """As uxn-fmt lays it out: each example, and a program of 168 lines."""
        files = sorted(glob.glob(os.path.join(EXAMPLES, "**", "*.tal"), recursive=True)) + [
            os.path.join(PROGRAMS, "life.tal")
        ]
        for path in files:
            with open(path, encoding="utf-8") as file:
                self.write("a.tal", file.read())
            self.vim("a.tal", "set ts=4 sw=0", r'if !search("^\t", "w") | set et | endif', "normal! gg=G", "w! b.tal")
            self.assertEqual(self.read("b.tal").decode(), self.read("a.tal").decode(), path)

    @unittest.skipUnless(os.path.isdir(ALE), "there is no vim-ale")
    def test_the_language_server_by_ale(self) -> None:
        """With the settings of the page, in a terminal: the list of faults, and the definition of a label in an
        included file."""
        shutil.copytree(PROGRAMS, self.folder, dirs_exist_ok=True)
        text = (
            self.read("life.tal")
            .decode()
            .replace("#05 .wanted", "#5 .wanted")
            .replace("print-cell\n", "print-cells\n", 1)
        )
        self.write("life.tal", text)
        self.write(
            "vimrc", f"set rtp^={EXTRAS}/vim\nfiletype plugin indent on\n{settings('Vim', 'vim')}\n{ALE_SESSION}"
        )
        in_terminal(["vim", "-u", "vimrc", "-i", "NONE", "-n", "-N", "life.tal"], self.folder, self.environment)
        number, name, place = self.read("said").decode().splitlines()
        self.assertEqual(number.partition(": the digits")[0], "21:2 BadNumber: #5")
        self.assertEqual(name, "140:8 UnknownName: print-cells: no label has this name, and no macro before it")
        self.assertEqual(place, "print.tal14")


# What is done as soon as ALE has found the faults, and as the definition has come.
ALE_SESSION = """
set hidden
call timer_start(100, 'Look', {'repeat': -1})
function! Look(timer) abort
  if len(getloclist(0)) > 1
    call timer_stop(a:timer)
    call writefile(map(getloclist(0), 'v:val.lnum .. ":" .. v:val.col .. " " .. v:val.text'), 'said')
    call search('print-digit')
    ALEGoToDefinition
    call timer_start(100, 'Leave', {'repeat': -1})
  endif
endfunction
function! Leave(timer) abort
  if expand('%:t') ==# 'print.tal'
    call writefile([expand('%:t') .. line('.')], 'said', 'a')
    qa!
  endif
endfunction
"""


def in_terminal(words: list[str], folder: str, environment: dict[str, str], seconds: float = 60) -> None:
    """Runs a program in a pseudo-terminal until it ends."""
    ours, its = pty.openpty()
    program = subprocess.Popen(
        words,
        cwd=folder,
        env={**environment, "TERM": "xterm"},
        stdin=its,
        stdout=its,
        stderr=its,
        start_new_session=True,
    )
    os.close(its)
    end = time.monotonic() + seconds
    try:
        while program.poll() is None and time.monotonic() < end:
            if select.select([ours], [], [], 0.1)[0]:
                os.read(ours, 65536)
    except OSError:  # the program closed its side
        program.wait(timeout=5)
    finally:
        program.kill()
        program.wait()
        os.close(ours)
