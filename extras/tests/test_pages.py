"""Tries .ci/pages and .ci/conditions on pages of their own: what they take and what they find."""
from __future__ import annotations

import os
import re

from support import TOP, ToolTest

PAGES = os.path.join(TOP, ".ci", "pages")
CONDITIONS = os.path.join(TOP, ".ci", "conditions")
OPTIONS = "crates/uxn_arguments/src/options.rt"
GOOD = """# A page

For people who try. It works.

```console
$ echo one; echo two >&2
one
two
$ false
$ echo $?
1
$ cat >x <<'END'
> a
> END
$ cat x; seq 100
a
1
...
100
$ mkdir sub; cd sub
```

Write `f.txt`:

```text f.txt
in the file
```

    $ cat f.txt
    in the ...

```console norun: it is not there
$ nothing at all
```

```console needs: no_such_tool
$ no_such_tool
```

[Here](#a-page) and `uxn play --rom`.
"""


class PagesTest(ToolTest):
    def setUp(self) -> None:
        super().setUp()
        self.write("crates.txt", "")
        with open(os.path.join(TOP, OPTIONS), encoding="utf-8") as file:
            self.write(OPTIONS, file.read())
        os.mkdir(self.path("examples"))

    def say(self, text: str, *words: str) -> list[str]:
        """The lines that the tool prints of a page."""
        self.write("a.md", text)
        done = self.call(PAGES, "--top", self.folder, self.program, *words, "a.md")
        return done.stdout.decode().splitlines()

    def finds(self, old: str, new: str) -> str:
        """What the tool finds where the good page is changed: it has to find one fault."""
        lines = self.say(GOOD.replace(old, new))
        self.assertRegex(lines[-1], r"^\d+ passed, 1 failed$", lines)
        return next(line for line in lines if line.startswith("FAILED "))

    def test_good_page(self) -> None:
        lines = self.say(GOOD)
        self.assertEqual(lines[-1], "9 passed, 0 failed", lines)
        self.assertIn("there is no no_such_tool", lines[0])

    def test_other_output(self) -> None:
        self.assertIn("$ echo one", self.finds("one\ntwo\n", "one\nthree\n"))
        self.assertIn("$ cat f.txt", self.finds("in the ...", "in a ..."))
        self.assertIn("$ cat x", self.finds("...\n100\n", "...\n99\n"))

    def test_status_that_is_not_shown(self) -> None:
        self.assertIn("it ends with 1", self.finds("$ echo $?\n1\n", ""))

    def test_shell_that_ends(self) -> None:
        self.assertIn("ended the shell", self.finds("    in the ...\n", "    in the ...\n    $ exit 0\n"))

    def test_names(self) -> None:
        self.assertIn("no heading #b-page", self.finds("(#a-page)", "(#b-page)"))
        self.assertIn("no file b.md", self.finds("(#a-page)", "(b.md)"))
        self.assertIn("uxn has no option --rim", self.finds("--rom", "--rim"))

    def test_prose(self) -> None:
        self.assertIn("'told'", self.finds("It works.", "It is told."))
        self.assertIn("'faster'", self.finds("It works.", "It is faster."))
        self.assertIn("101 columns", self.finds("It works.", "w" * 81))
        self.assertIn("more than two lines", self.finds("It works.", "It works.\nIt\nworks."))
        self.assertIn("a command outside", self.finds("```console norun: it is not there", "```text"))
        self.assertIn("norun: REASON", self.finds("norun: it is not there", "norun:"))
        self.assertIn("does not name `f.txt`", self.finds("Write `f.txt`:", "Write it:"))

    def test_write(self) -> None:
        self.say(GOOD.replace("one\ntwo\n", "three\n").replace("in the ...", "other"), "--write")
        self.assertEqual(self.read("a.md").decode(), GOOD.replace("in the ...", "in the file"))

    def test_wrong_call(self) -> None:
        self.refuse(2, PAGES)
        self.refuse(2, PAGES, self.program, "--no-such-option")
        self.assertTrue(re.search("norun: REASON", self.succeed(PAGES, "--help")))


NUMBERS = """/// Bytes of a source.
pub const TEXT_LIMIT: usize = 4_194_304;

/// Machines of a setup, at least.
pub const FEWEST_MACHINES: usize = 2;
"""
LIMITS = """# Limits

For people who try.

| what | limit | past it |
|---|---|---|
| source | 4,194,304 bytes | 131 |
| machines | 2 to 8 | 139 |
"""
CASES = """# the limits
source: TEXT_LIMIT
within limits/short
past limits/long
machines: FEWEST_MACHINES other::MOST
within limits/short
past limits/long
"""


class LimitsTest(ToolTest):
    def setUp(self) -> None:
        super().setUp()
        self.write("crates.txt", "")
        with open(os.path.join(TOP, OPTIONS), encoding="utf-8") as file:
            self.write(OPTIONS, file.read())
        os.mkdir(self.path("examples"))
        self.write("crates/uxn_limits/src/limits.rt", NUMBERS)
        self.write("crates/other/src/lib.rt", "const MOST: u8 = 8;\n")
        self.write("docs/limits.md", LIMITS)
        self.write("cases/limits.txt", CASES)
        for case in ("short", "long"):
            self.write(f"cases/limits/{case}.case", "")

    def say(self, name: str = "", old: str = "", new: str = "") -> str:
        """What the tool prints where a text of a file is another."""
        if name:
            text = self.read(name).decode()
            self.assertEqual(text.count(old), 1)
            self.write(name, text.replace(old, new))
        return self.call(PAGES, "--top", self.folder, self.program).stdout.decode()

    def test_page_with_the_numbers_of_the_code(self) -> None:
        self.assertEqual(self.say().splitlines()[-1], "3 passed, 0 failed")

    def test_another_number(self) -> None:
        said = self.say("docs/limits.md", "4,194,304", "4,194,305")
        self.assertIn("source: TEXT_LIMIT is 4,194,304", said)
        said = self.say("crates/other/src/lib.rt", "= 8", "= 9")
        self.assertIn("machines: other::MOST is 9", said)
        self.assertEqual(said.splitlines()[-1], "1 passed, 2 failed")

    def test_constants_that_are_not_named_or_not_there(self) -> None:
        self.assertIn("no limit has the constant FEWEST_MACHINES", self.say("cases/limits.txt", "FEWEST_MACHINES ", ""))
        self.assertIn("machines: no constant other::LEAST", self.say("cases/limits.txt", "other::MOST", "other::LEAST"))

    def test_rows_and_cases(self) -> None:
        self.assertIn("no case limits/none", self.say("cases/limits.txt", "TEXT_LIMIT\nwithin limits/short", "TEXT_LIMIT\nwithin limits/none"))
        self.assertIn("not the same limits in the same order: ['machines', 'more']", self.say("docs/limits.md", "machines", "more"))


LIBRARY = """mod inner;

pub use inner::{Thing, helper};

/// Halves a number.
pub fn half(number: u8) -> u8
    requires even { number % 2 ≡ 0 }
    ensures value { result ≡ number / 2 }
{
    number / 2
}
"""
INNER = """impl Thing {
    pub fn take(&mut self, at: u8)
        requires {
            at < 4
        }
        ensures taken { self.new ≡ at }
    {
        self.hide();
    }

    fn hide(&self)
        requires { 1 ≡ 1 }
    {}
}

pub fn helper() {}

pub fn private(at: u8)
    requires { at ≡ 0 }
{}
"""
PROMISES = """# What is proved

## The crate: `a::half`

| promise | clause | premise |
|---|---|---|
| It halves. | `value` | |
| It takes. | `a::Thing::take`: `taken` | |
"""


class ConditionsTest(ToolTest):
    def setUp(self) -> None:
        super().setUp()
        self.write("crates.txt", "a:\n")
        self.write("crates/a/src/lib.rt", LIBRARY)
        self.write("crates/a/src/inner.rt", INNER)
        self.write("docs/proved.md", PROMISES)
        self.succeed(CONDITIONS, "--top", self.folder, "--write")

    def last(self) -> str:
        return self.call(CONDITIONS, "--top", self.folder).stdout.decode().splitlines()[-1]

    def test_public_functions_alone(self) -> None:
        page = self.read("docs/dev/conditions.md").decode()
        self.assertIn("\nThing::take\n    at < 4\nhalf\n    even: number % 2 ≡ 0\n", page)
        self.assertNotIn("hide", page)
        self.assertNotIn("private", page)
        self.assertEqual(self.last(), "4 passed, 0 failed")

    def test_a_condition_that_the_page_does_not_have(self) -> None:
        more = INNER.replace("pub fn helper()", "pub fn helper()\n    requires { 2 ≡ 2 }\n")
        self.write("crates/a/src/inner.rt", more)
        self.assertEqual(self.last(), "2 passed, 1 failed")

    def test_names_that_are_not_there(self) -> None:
        for old, new in (("`value`", "`worth`"), ("take`", "give`"), ("`taken`", "`given`")):
            self.write("docs/proved.md", PROMISES.replace(old, new))
            self.assertEqual(self.last(), "3 passed, 1 failed", new)

    def test_wrong_call(self) -> None:
        self.refuse(2, CONDITIONS, "--no-such-option")
