"""What makes a program of a helper: its words, by its manual, its lines on standard error, and its status.

A helper is given files and names by strangers. So no name becomes a part of a program's text or of a path that leads
elsewhere, and what is printed of a name or of a line goes through `escaped`."""
from __future__ import annotations

import argparse
import functools
import gc
import os
import sys
from collections.abc import Callable
from types import ModuleType
from typing import Any, NoReturn

from dexasm.canonical import NoListing
from dexasm.cli.errors import FAILED, MEMORY, USAGE, CliError, reason
from dexasm.cli.io import read_file
from dexasm.cli.sanitize import escaped, without_commands


# (what only some helpers call is imported where it is: that takes longer than most of what they do)
UNITS = {"K": 1 << 10, "M": 1 << 20, "G": 1 << 30}
# By module what declares the words of a helper and runs it: tools/generate makes completions of the former.
declarations: dict[str, Callable[[Parser], int]] = {}
SHORT = {"--output": "-o", "--quiet": "-q", "--version": "-V"}  # options, as the command has them


class UsageError(CliError):
    """The words are wrong."""


class Version(argparse.Action):
    """Prints the version of the command, which is the helper's too: they come together."""

    def __init__(self, **options: Any) -> None:
        super().__init__(nargs=0, **options)

    def __call__(self, parser: argparse.ArgumentParser, *_: object) -> None:
        print(self.text(parser.prog))
        parser.exit()

    def text(self, prog: str) -> str:
        import dexasm

        try:
            return f"{prog} {dexasm.version()}"
        except (ImportError, OSError, dexasm.Refused) as error:
            raise CliError(f"dexasm: {escaped(str(error))}") from None


class Parser(argparse.ArgumentParser):
    """A helper's words, by its manual: --help prints it, and its usage is told where the words are wrong. An option is
    given once, and has a short form if the command's has one.
    """

    def __init__(self, program: ModuleType) -> None:
        self.program, self.doc = program, docstring(program).strip() + "\n"
        self.usage_text = self.doc.split("\n\n")[1]
        # (whose width is looked for otherwise, which takes a while, for a help that isn't printed)
        formatter = functools.partial(argparse.HelpFormatter, width=80)
        named: dict[str, Any] = {"prog": self.usage_text.split()[1], "usage": "%(prog)s"}
        # (of a word that is added twice the second one counts)
        settings: dict[str, Any] = {"allow_abbrev": False, "conflict_handler": "resolve"}
        self.seen = set[argparse.Action]()
        super().__init__(**named, **settings, formatter_class=formatter)
        self.add_argument("--version", action=Version)

    def add_argument(self, *names: Any, **options: Any) -> argparse.Action:
        shorts = [SHORT[name] for name in names if SHORT.get(name, name) not in names]
        return super().add_argument(*names, *shorts, **options)

    def parse_intermixed_args(self, args: Any = None, namespace: Any = None) -> Any:
        """The words behind `--` are no options: argparse forgets it where an option comes right before the `--`, so a NUL,
        which no word of a command line has, leads each of them until its values are read.
        """
        words = list(sys.argv[1:] if args is None else args)
        end = words.index("--") if "--" in words else len(words)
        words[end:] = ["\0" + word for word in words[end + 1 :]]
        return super().parse_intermixed_args(words, namespace)

    def _get_values(self, action: argparse.Action, words: list[str]) -> Any:
        """The values of an argument, which argparse asks for at each time that it is given."""
        words = [word.removeprefix("\0") for word in words]
        if action in self.seen and action.option_strings and not isinstance(action.default, list):
            raise argparse.ArgumentError(action, "cannot be used multiple times")
        self.seen.add(action)
        return super()._get_values(action, words)

    def format_help(self) -> str:
        return self.doc

    def print_help(self, file: object = None) -> None:
        print(self.doc, end="")  # (argparse passes over what can't be written)

    def error(self, message: str) -> NoReturn:
        message = escaped(message.replace("\0", ""))
        raise UsageError(f"{self.usage_text}\n{self.prog}: {message}{self.tip()}", USAGE)

    def tip(self) -> str:
        """A line that names the option that an unknown one is near to."""
        import difflib
        import itertools

        known = self.known_options()
        given = (word.partition("=")[0] for word in itertools.takewhile(lambda word: word != "--", sys.argv[1:]))
        unknown = [word for word in given if word.startswith("--") and word not in known]
        near = [found for word in unknown for found in difflib.get_close_matches(word, known, 1)]
        return f"\n  tip: a similar argument exists: '{near[0]}'" if near else ""

    def known_options(self) -> list[str]:
        """The options, with those of subcommands."""
        found = [name for action in self._actions for name in action.option_strings]
        jobs = [action.choices for action in self._actions if isinstance(action, argparse._SubParsersAction)]
        return found + [name for parsers in jobs for one in parsers.values() for name in one.known_options()]


def byte_count(word: str) -> int:
    """A word that is a number of bytes."""
    unit = UNITS.get(word[-1:].upper(), 1)
    number = int(word[:-1] if unit > 1 else word) * unit
    if number < 1 << 20 or number > 1 << 50:
        raise ValueError
    return number


def positive_number(word: str, kind: Callable[[str], float] = int) -> float:
    number = kind(word)
    if not 0 < number < 1 << 20:
        raise ValueError
    return number


def seconds(word: str) -> float:
    return positive_number(word, float)


def docstring(program: ModuleType) -> str:
    """The docstring of a helper with its parts; out of its file where Python was told to keep none (-OO)."""
    doc = program.__doc__
    if not doc:
        import ast

        doc = ast.get_docstring(ast.parse(read_file(program.__file__)), clean=False) or ""
    for name, part in getattr(program, "PARTS", {}).items():
        doc = doc.replace(name, part)
    return doc


def print_error(line: str) -> None:
    """A line on standard error, where there is one."""
    if sys.stderr is not None:
        try:
            print(*map(without_commands, line.split("\n")), sep="\n", file=sys.stderr, flush=True)
        except OSError:
            pass


def command(trouble: int | None = None, unread: int = 0) -> Callable[[Callable[[Parser], int]], Callable[[], NoReturn]]:
    """Makes the `main` of a helper of a function that takes a parser of its words and answers the status. It ends with
    a status whatever happens, and with one line on standard error where something went wrong. `trouble` is the status
    of that, where it isn't told apart; `unread` is that of a run whose output nobody read to the end. A module that is
    itself the program (`python3 -m dexasm.cli.check`) runs at once, so this is its last function.
    """

    def decorate(does: Callable[[Parser], int]) -> Callable[[], NoReturn]:
        declarations[does.__module__] = does

        def main() -> NoReturn:
            run(does, trouble, unread)

        if does.__module__ == "__main__":
            main()
        return main

    return decorate


def run(does: Callable[[Parser], int], trouble: int | None, unread: int) -> NoReturn:
    """Runs a helper. (For its developer, `python3 -X dev` shows where a failure was that nobody thought of.)"""
    parser = Parser(sys.modules[does.__module__])
    gc.set_threshold(100_000)  # (a program's objects stay until the end, so that most collections find nothing)
    try:
        if sys.stdout is None:
            raise CliError("cannot write: standard output is closed")
        sys.stdout.reconfigure(errors="backslashreplace")  # type: ignore[attr-defined]
        status = run_main(does, parser, unread)
    except CliError as failed:
        print_error(failed.line if isinstance(failed, UsageError) else f"{parser.prog}: {failed.line}")
        status = trouble or failed.status
    except OSError as error:
        print_error(f"{parser.prog}: {reason(error)}")
        status = trouble or FAILED
    except ImportError as error:  # (of a module of Python's own, if there is hardly any memory)
        print_error(f"{parser.prog}: cannot import: {escaped(str(error))}")
        status = trouble or FAILED
    except MemoryError:
        print_error(f"{parser.prog}: out of memory")
        status = trouble or MEMORY
    except KeyboardInterrupt:
        status = 130
    except Exception as error:
        if sys.flags.dev_mode:
            raise
        why = f"unexpected {type(error).__name__}: {escaped(str(error))}"
        print_error(f"{parser.prog}: {'dexasm: unexpected output of `list`' if isinstance(error, NoListing) else why}")
        status = trouble or FAILED
    drop_unwritten()
    sys.exit(status)


def run_main(does: Callable[[Parser], int], parser: Parser, unread: int) -> int:
    """The status of a helper, when all that it printed is written, or nobody reads it any more."""
    status = unread
    try:
        try:
            status = does(parser)
        except SystemExit:  # (of --help)
            status = 0
        sys.stdout.flush()
    except BrokenPipeError:
        if not is_output_closed():
            raise
    return status


def is_output_closed() -> bool:
    """Whether standard output is a pipe, or a socket, that its reader closed."""
    import select

    poll = select.poll()
    poll.register(sys.stdout.fileno(), 0)
    return any(event & (select.POLLERR | select.POLLHUP) for _, event in poll.poll(0))


def drop_unwritten() -> None:
    """What couldn't be written is let go, so that nothing is told of it once more when Python ends."""
    for stream in (sys.stdout, sys.stderr):
        try:
            if stream is not None:
                stream.flush()
        except OSError:
            os.dup2(os.open(os.devnull, os.O_WRONLY), stream.fileno())
