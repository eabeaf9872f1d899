"""Tests of Uxn programs: finding them, running them, comparing what came with what is wanted, showing the difference.

For tools that work over the tests of a project:

    from uxntools import testing

    for test in testing.discover(["tests/win", "keys"]):      # no names: all tests of the current folder and beneath it
        test.name          # "tests/win", as the user names it
        test.folder        # the folder that its calls are made in; all paths below are relative to it
        test.program       # "game.tal": a source, a ROM (test.is_rom) or a setup (test.kind == "line")
        test.kind          # "play", "debug" (it has debugger commands) or "line"
        test.script        # "tests/win.script", or None
        test.settings      # budget, root and the others of uxn-test.toml
        test.path("out")   # "tests/win.out", whether it is there or not; test.has("out") says whether it is

    with testing.prepared(test) as call:                      # a scratch folder, with a copy of its root
        call.words("play")                                    # ["play", "game.tal", "--script", "tests/win.script", ..]
        call.words("debug", "--commands", c, "--log", l)      # the same run in the debugger, with options of your own
        call.scratch                                          # for files of your own: relative to test.folder

    result = testing.run(test)                                # result.status, .out, .err, .report, ..

Faults of the user, as a name that is no test, are `cli.Failure`: one line and a status."""
from uxntools.testing.configuration import Settings
from uxntools.testing.discovery import Test, discover
from uxntools.testing.running import Call, Result, prepared, run

__all__ = ["Call", "Result", "Settings", "Test", "discover", "prepared", "run"]
