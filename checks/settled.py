"""What settles a wrong body that the prover shows no values for: a row of checks/tables that comes out otherwise by it, a case of
another check that fails by it, or values at which a clause is false, in words.

Nothing is run here: it is looked up whether the row or the check is there. So a row that moves is noticed.
"""
from __future__ import annotations

import importlib
import re

from sources import TOP

ROW = re.compile(r"row (?P<module>\w+), (?P<table>[^,]+), (?P<number>\d+)$")
CHECK = re.compile(r"check (?P<name>[\w-]+), \S.*$")
VALUES = re.compile(r"at \S.*$")


def has_row(module, table, number):
    """Whether a table of checks/tables has so many rows."""
    if not (TOP / f"checks/tables/{module}.py").is_file():
        return False
    return 1 <= int(number) <= len(importlib.import_module(f"tables.{module}").TABLES.get(table, ()))


def fault_of(why):
    """What is wrong of a reason, or none."""
    if found := ROW.match(why):
        return None if has_row(*found.groups()) else f"{why} isn't there"
    if found := CHECK.match(why):
        return None if (TOP / "checks" / found["name"]).is_file() else f"there is no checks/{found['name']}"
    return None if VALUES.match(why) else f"'{why}' is no row, no check, and no values"
