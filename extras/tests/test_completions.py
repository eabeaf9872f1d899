"""The completions for bash and zsh: each option of docs/commands.md, files, folders, and the options of the tools."""
import os
import re
import shlex

from support import EXTRAS, TOP, ToolTest, needs

BASH = os.path.join(EXTRAS, "completions", "uxn.bash")
ZSH = os.path.join(EXTRAS, "completions", "_uxn")
# A shell at a terminal, in which a line is typed and completed; it says the line that this gives.
TYPED = """zmodload zsh/zpty
zpty shown zsh -f -i
zpty -w shown 'PS1=; fpath=({folder} $fpath); autoload -U compinit; compinit -u -d {here}/dump; cd {here}'
zpty -w shown 'say() {{ print -r -- "<$BUFFER>" }}; zle -N say; bindkey "^X" say; bindkey "^I" complete-word'
zpty -w shown 'echo re""ady'
zpty -r -m shown said '*ready*'
zpty -w -n shown {typed}$'\\t\\x18'
zpty -r -m shown said '*<*>*'
print -r -- "$said"
zpty -d shown"""


def options_of_the_page() -> set[str]:
    with open(os.path.join(TOP, "docs", "commands.md"), encoding="utf-8") as file:
        return {option for line in file if line.startswith("| `") for option in re.findall(r"--[a-z]+", line)} - {
            "--help",
            "--version",
        }


class Bash(ToolTest):
    def complete(self, *words: str) -> list[str]:
        """What the last word may become."""
        name = {"uxn": "_uxn", "uxn-sandbox": "_uxn_sandbox"}.get(words[0], "_uxn_tool")
        line = f"COMP_WORDS=({shlex.join(words)}) COMP_CWORD={len(words) - 1}"
        command = f". {shlex.quote(BASH)}; {line}; {name} {words[0]}; printf '%s\\n' \"${{COMPREPLY[@]}}\""
        return sorted(self.succeed("bash", "-c", command).split())

    def setUp(self) -> None:
        super().setUp()
        self.write("hello.tal", "BRK")
        self.write("save/high", "")

    def test_commands_options_and_files(self) -> None:
        self.assertEqual(self.complete("uxn", ""), ["asm", "debug", "dis", "gen", "line", "play"])
        self.assertEqual(self.complete("uxn", "d"), ["debug", "dis"])
        self.assertEqual(self.complete("uxn", "asm", "hello.tal", "--o"), ["--out"])
        self.assertEqual(self.complete("uxn", "play", "he"), ["hello.tal"])
        self.assertEqual(self.complete("uxn", "play", "hello.tal", "--root", ""), [".bin", "save"])
        self.assertEqual(self.complete("uxn", "play", "hello.tal", "--budget", ""), [])
        self.assertEqual(self.complete("uxn", "nothing", "--o"), [])

    def test_tools(self) -> None:
        self.assertEqual(self.complete("uxn-manual", "--o"), ["--out"])
        self.assertEqual(self.complete("uxn-manual", "he"), ["hello.tal"])
        self.assertEqual(self.complete("uxn-sandbox", "--s"), ["--seconds", "--size"])
        self.assertEqual(self.complete("uxn-sandbox", "--isolation", "n"), ["need", "none"])
        self.assertEqual(self.complete("uxn-sandbox", "--seconds", "5", "p"), ["play"])
        self.assertEqual(self.complete("uxn-sandbox", "--seconds=5", "play", "hello.tal", "--scr"), ["--script"])

    def test_all_options_and_all_tools(self) -> None:
        with open(BASH, encoding="utf-8") as file:
            text = file.read()
        own = {"--help", "--isolation"}
        self.assertEqual(set(re.findall(r"--[a-z]+", text)) - own, options_of_the_page())
        there = {name for name in os.listdir(os.path.join(EXTRAS, "bin")) if name.startswith("uxn-")}
        self.assertEqual(there - set(re.findall(r"uxn-[a-z-]+", text)), set())


class Zsh(ToolTest):
    def complete(self, typed: str) -> str:
        """What a line becomes by the tabulator."""
        command = TYPED.format(
            folder=shlex.quote(os.path.dirname(ZSH)), here=shlex.quote(self.folder), typed=shlex.quote(typed)
        )
        return re.findall(r"<(.*)>", self.succeed("zsh", "-f", "-c", command))[-1].rstrip()

    def test_all_options(self) -> None:
        with open(ZSH, encoding="utf-8") as file:
            self.assertEqual(set(re.findall(r"'(--[a-z]+)", file.read())), options_of_the_page())

    @needs("zsh")
    def test_typed(self) -> None:
        self.write("hello.tal", "BRK")
        for typed, wanted in (
            ("uxn asm a.tal --lis", "ting"),
            ("uxn play he", "llo.tal"),
            ("uxn de", "bug"),
            ("uxn-sandbox --sec", "onds"),
            ("uxn-sandbox --seconds 5 play a.tal --scr", "ipt"),
            ("uxn-manual --o", "ut"),
            ("uxn-manual he", "llo.tal"),
            ("uxn asm a.tal --no", ""),
            ("uxn dis a.rom --rom", ""),
        ):
            self.assertEqual(self.complete(typed), typed + wanted)
