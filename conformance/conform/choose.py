"""Which tests of the suite are run."""
from __future__ import annotations

import fnmatch

from conform import tests
from conform.tests import Test
from conform.cli import Failure


def chosen(
    all_tests: list[Test], kind: str, levels: list[str], devices: list[str], profile: bool, names: list[str]
) -> list[Test]:
    """The tests of a kind of program that the options leave; a name may have `*` and `?`. There has to be one."""
    found = [test for test in all_tests if test.kind == kind]
    if levels:
        found = [test for test in found if test.level in levels]
    if devices:
        found = [test for test in found if set(test.devices) & set(devices)]
    if not profile and not names:
        found = [test for test in found if not test.profile]
    for name in names:
        if not any(fnmatch.fnmatchcase(test.name, name) for test in all_tests):
            raise Failure(f"no test is called {name}", 2)
    if names:
        found = [test for test in found if any(fnmatch.fnmatchcase(test.name, name) for name in names)]
    if not found:
        profile_hint = "" if profile or names else "; some need --profile"
        raise Failure(f"no test of {'an' if kind[0] in 'ae' else 'a'} {kind} is chosen{profile_hint}", 2)
    return found


def check_words(given: list[str], known: tuple[str, ...], what: str) -> list[str]:
    for word in given:
        if word not in known:
            raise Failure(f"there is no {what} {word}: they are {', '.join(known)}", 2)
    return given


def levels_of(given: list[str]) -> list[str]:
    return check_words(given, tests.LEVELS, "level")


def devices_of(given: list[str]) -> list[str]:
    return check_words(given, tests.DEVICES, "device")
