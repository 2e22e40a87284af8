"""What is printed where help is asked for, of both programs and of each subcommand.

Written out by hand, in the form that `clap` gives a help: what a command does, its usage, its operands, its options, and where codes
are explained.
"""
from __future__ import annotations

from tables import Row, Tables

PROGRAM = """\
A table of cells with snapshot transactions, and BPF observers that run on its changes

Usage: percobpf <COMMAND>

Commands:
  run     Makes a script's changes, runs the observers on them, and prints the report
  replay  Replays a schedule's events with a script's changes, and prints the report
  asm     Writes the bytes of a program's text
  dis     Prints the text of a program's bytes, or where they are refused
  check   Prints whether a program's bytes are accepted, or where they are refused
  help    Print this message or the help of the given subcommand(s)

Options:
  -h, --help  Print help

Codes and exit statuses: docs/CODES.md
"""

RUN = """\
Makes a script's changes, runs the observers on them, and prints the report

Usage: percobpf run [OPTIONS] <MANIFEST> <SCRIPT>

Arguments:
  <MANIFEST>  A JSON file with the observers and their programs
  <SCRIPT>    A text file with the changes, one per line

Options:
      --workers <N>  How many threads make the changes, 1 to 63 (1 if not given)
      --swaps <M>    How many tablets are replaced while the workers run, 0 to 1000 (0 if not given)
  -h, --help         Print help

Codes and exit statuses: docs/CODES.md
"""

REPLAY = """\
Replays a schedule's events with a script's changes, and prints the report

Usage: percobpf replay [OPTIONS] <MANIFEST> <SCRIPT> <SCHEDULE>

Arguments:
  <MANIFEST>  A JSON file with the observers and their programs
  <SCRIPT>    A text file with the changes, one per line
  <SCHEDULE>  A text file with the events, one per line

Options:
      --clock <N>  The last timestamp given out before the events (0 if not given)
  -h, --help       Print help

Codes and exit statuses: docs/CODES.md
"""

ASM = """\
Writes the bytes of a program's text

Usage: percobpf asm [OPTIONS] <IN> <OUT>

Arguments:
  <IN>   A text file with one instruction per line
  <OUT>  The file that the program's bytes are written to

Options:
      --profile <N>  The profile of the program, 1 or 2 (1 if not given)
  -h, --help         Print help

Codes and exit statuses: docs/CODES.md
"""

DIS = """\
Prints the text of a program's bytes, or where they are refused

Usage: percobpf dis [OPTIONS] <FILE>

Arguments:
  <FILE>  A file with a program's bytes

Options:
      --profile <N>  The profile of the program, 1 or 2 (1 if not given)
  -h, --help         Print help

Codes and exit statuses: docs/CODES.md
"""

CHECK = """\
Prints whether a program's bytes are accepted, or where they are refused

Usage: percobpf check [OPTIONS] <FILE>

Arguments:
  <FILE>  A file with a program's bytes

Options:
      --profile <N>  The profile of the program, 1 or 2 (1 if not given)
      --record <N>   The version of the change record, 1 or 2 (1 if not given)
  -h, --help         Print help

Codes and exit statuses: docs/CODES.md
"""

STORY = """\
What is known before each slot of a program, what each event of a replay did, and what one run does

Usage: percobpf_story <COMMAND>

Commands:
  frames  Prints what is known before each slot of a program, or where its bytes are refused
  replay  Replays a schedule's events, and prints what each did, and then the report
  trial   Runs a program once on the record of a change, and prints what it asks, writes and returns
  help    Print this message or the help of the given subcommand(s)

Options:
  -h, --help  Print help
"""

FRAMES = """\
Prints what is known before each slot of a program, or where its bytes are refused

Usage: percobpf_story frames [OPTIONS] <FILE>

Arguments:
  <FILE>  A file with a program's bytes

Options:
      --profile <N>  The profile of the program, 1 or 2 (1 if not given)
      --record <N>   The version of the change record, 1 or 2 (1 if not given)
  -h, --help         Print help
"""

STORY_REPLAY = """\
Replays a schedule's events, and prints what each did, and then the report

Usage: percobpf_story replay [OPTIONS] <MANIFEST> <SCRIPT> <SCHEDULE>

Arguments:
  <MANIFEST>  A JSON file with the observers and their programs
  <SCRIPT>    A text file with the changes, one per line
  <SCHEDULE>  A text file with the events, one per line

Options:
      --clock <N>     The last timestamp given out before the events (0 if not given)
      --events <A-B>  Prints the lines of events A to B alone, counted from 0 (of all events if not given)
      --idle          Also prints the steps and crashes of actors without a job
  -h, --help          Print help

Codes and exit statuses: docs/CODES.md
"""

TRIAL = """\
Runs a program once on the record of a change, and prints what it asks, writes and returns

Usage: percobpf_story trial [OPTIONS] --row <R> --column <C> --value <HEX> <FILE>

Arguments:
  <FILE>  A file with a program's bytes

Options:
      --row <R>             The row of the cell that was changed
      --column <C>          The column of that cell, 0 to 15
      --value <HEX>         The value that the change wrote
      --old <HEX>           The acknowledged value of that cell (nothing is acknowledged if not given)
      --cell <R> <C> <HEX>  Another cell with its value (a cell that isn't given is absent)
      --profile <N>         The profile of the program, 1 or 2 (1 if not given)
      --record <N>          The version of the change record, 1 or 2 (1 if not given)
  -h, --help                Print help

The change began at 1 and committed at 2, and the run began at 3. With --old these are 5, 6 and 7, and 3 is acknowledged.
"""


def helps(program: str, text: str, *lines: list[str]) -> list[Row]:
    """Command lines of a program that are answered by this text."""
    return [Row(words, out=text.encode(), program=program) for words in lines]


def of_subcommand(program: str, name: str, text: str) -> list[Row]:
    """The command lines that ask for the help of a subcommand."""
    return helps(program, text, [name, "--help"], [name, "-h"], ["help", name])


OF_PROGRAMS = [
    *helps("percobpf", PROGRAM, ["--help"], ["-h"], ["help"], ["--help", "run"]),
    *helps("percobpf_story", STORY, ["--help"], ["-h"], ["help"]),
]

# help is also asked for behind all the words that a command line can have, and then nothing is done
OF_SUBCOMMANDS = [
    *of_subcommand("percobpf", "run", RUN),
    *of_subcommand("percobpf", "replay", REPLAY),
    *of_subcommand("percobpf", "asm", ASM),
    *of_subcommand("percobpf", "dis", DIS),
    *of_subcommand("percobpf", "check", CHECK),
    *of_subcommand("percobpf_story", "frames", FRAMES),
    *of_subcommand("percobpf_story", "replay", STORY_REPLAY),
    *of_subcommand("percobpf_story", "trial", TRIAL),
    *helps("percobpf", RUN, ["run", "m", "s", "--workers", "2", "--swaps", "3", "--help"]),
    *helps("percobpf", CHECK, ["check", "i", "--profile", "2", "--record", "2", "-h"]),
    *helps("percobpf_story", FRAMES, ["frames", "i", "--profile", "2", "--record", "2", "-h"]),
]

# a help that can't be printed
UNWRITTEN = [
    Row(words, status=1, err=b"cannot write the output\n", program=program, to="/dev/full")
    for program, words in (("percobpf", ["--help"]), ("percobpf", ["help", "run"]), ("percobpf_story", ["--help"]), ("percobpf_story", ["trial", "-h"]))
]

TABLES: Tables = {"of programs": OF_PROGRAMS, "of subcommands": OF_SUBCOMMANDS, "that can't be printed": UNWRITTEN}
