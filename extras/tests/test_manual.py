"""uxn-manual: pages that `man` shows without a warning, whose lists are lists, and one for each tool."""
import os
import re

from support import EXTRAS, ToolTest, needs

from uxntools import manual

MADE_OF_PAGES = {"uxn.1", "uxn-limits.5", "uxn-script.5", "uxn-commands.5"}
TITLE = manual.Title("try-it", 5, "a page - for tests", "1.0", "2026-01-02")
PAGE = """# A page

It has `code`, **strong** words, *weak* ones, a [link](to.md) and a place to look ([there](to.md)).

## Things

- first `-x`,
  which goes on
- second

1. one
2. two

| word | what it is | where |
|---|---|---|
| `a\\|b` | a thing that is told in so many words that no table could hold them, whatever the screen | here |
| `.c` | | there |

| `12` | a |
|---|---|
| `17` | 2 |

    .not a request
    'nor this

### Smaller
Text.
"""


class Roff(ToolTest):
    @needs("man", "nroff", "tbl")
    def shown(self, text: str) -> str:
        """A page as `man` shows it, which has to have nothing to warn of."""
        self.write("page.5", text)
        done = self.call("man", "-E", "ascii", "--warnings", "-P", "cat", "./page.5", MANWIDTH="78", MANOPT="--nj")
        if b"minimized" in done.stdout + done.stderr:
            self.skipTest("man shows no pages here")
        self.assertEqual(done.stderr, b"")
        return re.sub(rb".\x08", b"", done.stdout).decode()

    def test_each_form(self) -> None:
        page = self.shown(manual.page(TITLE, PAGE, {}, ["uxn.1", "x-y.5"]))
        for wanted in (
            "TRY-IT(5)",
            "try-it - a page - for tests",
            "DESCRIPTION\n",
            "a link and a place to look.",
            "THINGS\n",
            "o first -x, which goes on\n",
            "o second\n",
            "1.  one\n",
            "2.  two\n",
            "       a|b    a thing that is told",
            "              where: here\n",
            "       .c     where: there\n",
            "           .not a request\n           'nor this\n",
            "   Smaller\n",
            "uxn(1), x-y(5).",
            "12   a\n",
        ):
            self.assertIn(wanted, page)
        self.assertNotRegex(page, r"`|\*\*|\[|\|[^b]|to\.md")

    def test_code_keeps_its_signs(self) -> None:
        signs = "a\\b -- ~x^y `q' |0100 @a/b \"c"
        self.assertIn(f"           {signs}\n", self.shown(manual.page(TITLE, f"# T\n\n    {signs}\n", {}, [])))

    def test_a_section(self) -> None:
        fenced = "# T\n\n## A\nno\n\n## B\nyes\n\n```console\n$ # ls\n```\n### C\nmore\n\n# D\nno\n"
        self.assertEqual(manual.section_of(fenced, "B"), "yes\n\n    $ # ls\n\n## C\nmore\n\n")
        self.assertEqual(manual.section_of(fenced, "E"), "")

    def test_a_column_of_the_head(self) -> None:
        table = f"# T\n\n| option | of | what |\n|---|---|---|\n| `--a` | `x`, `y` | {'so ' * 30} |\n"
        self.assertIn("       --a (x, y)\n              so so", self.shown(manual.page(TITLE, table, {}, [])))


class Pages(ToolTest):
    def setUp(self) -> None:
        super().setUp()
        self.succeed("uxn-manual", "--out", "man")
        self.names = sorted(os.listdir(self.path("man")))

    def test_a_page_for_each_tool(self) -> None:
        tools = {name for name in os.listdir(os.path.join(EXTRAS, "bin")) if name != "uxn-manual"}
        self.assertEqual(
            set(self.names), MADE_OF_PAGES | {f"{tool}.1" for tool in tools}
        )

    @needs("man", "nroff", "tbl")
    def test_man_shows_them(self) -> None:
        for name in self.names:
            done = self.call(
                "man", "-E", "ascii", "--warnings", "-P", "cat", f"./man/{name}", MANWIDTH="78", MANOPT="--nj"
            )
            if b"minimized" in done.stdout + done.stderr:
                self.skipTest("man shows no pages here")
            page = re.sub(rb".\x08", b"", done.stdout).decode()
            self.assertEqual(done.stderr, b"", name)
            self.assertRegex(page, r"(?m)^NAME\n +%s +- +\S" % name.rpartition(".")[0])
            self.assertRegex(page, r"(?m)^SEE ALSO\n +uxn")
            if name in MADE_OF_PAGES:
                self.assertNotRegex(page, r"(?m)`|^ *\|.*\|$|\]\(")

    def test_what_they_say(self) -> None:
        uxn, script, commands = (
            self.read(f"man/{name}").decode().replace("\\-", "-")
            for name in ("uxn.1", "uxn-script.5", "uxn-commands.5")
        )
        for wanted in (
            ".SH SYNOPSIS\n",
            ".SH OPTIONS\n",
            ".SH EXIT STATUS\n",
            "\\fBwords: not understood\\fR",
            "\\fBuxn-script\\fR(5)",
            ".IP \\(bu 2\n",
        ):
            self.assertIn(wanted, uxn)
        self.assertIn("\n\\fBmouse X Y\\fR\n", script)
        self.assertIn("\n\\fBstep N\\fR\n", commands)

    def test_calls(self) -> None:
        self.assertEqual(self.succeed("uxn-manual"), self.read("man/uxn.1").decode())
        self.assertEqual(self.succeed("uxn-manual", "uxn-script.5"), self.read("man/uxn-script.5").decode())
        self.assertIn("uxn.9", self.refuse(2, "uxn-manual", "uxn.9"))
        self.refuse(1, "uxn-manual", "--out", "man/uxn.1")
