"""The options that tools for traces share: one name for one thing, and one line for what is wrong."""
import argparse
import re
import sys

from running import Refusal, number, stop

from .reader import Reader, name_of, opened

LAST_TICK = 1 << 64


class Parser(argparse.ArgumentParser):
    """Options of a tool, with its text as help. What is wrong is said in one line, with status 2."""

    def __init__(self, tool, text):
        super().__init__(
            prog=tool, description=text, formatter_class=argparse.RawDescriptionHelpFormatter, allow_abbrev=False
        )

    def error(self, message):
        stop(self.prog, message.replace("unrecognized arguments:", "unknown option or word:"))

    def add_files(self):
        self.add_argument("files", nargs="*", metavar="FILE", help="traces; `-`, and none: standard input")

    def add_file(self):
        self.add_argument(
            "file", nargs="?", default="-", metavar="FILE", help="a trace; `-`, and none: standard input"
        )

    def add_ticks(self):
        self.add_argument("--from", dest="first", type=number(0), default=0, metavar="T", help="the first tick")
        self.add_argument("--to", dest="last", type=number(0), default=LAST_TICK, metavar="T", help="the last tick")

    def add_hosts(self, text="only these hosts"):
        self.add_argument("--hosts", type=hosts_of, default=None, metavar="A,B-C", help=f"{text}, as 0-3,7")

    def add_calls(self, text="only this call, as 0.1.0; several mean one of them"):
        self.add_argument("--call", dest="calls", type=call_of, action="append", default=[], metavar="ID", help=text)

    def add_tables(self):
        how = self.add_mutually_exclusive_group()
        how.add_argument("--json", dest="how", action="store_const", const="json", help="as JSON")
        how.add_argument(
            "--csv", dest="how", action="store_const", const="csv", help="as a table of values between commas"
        )

    def chosen(self):
        """The options that were given; a span of ticks ends behind its beginning."""
        found = self.parse_intermixed_args()
        if getattr(found, "first", 0) > getattr(found, "last", 0) and hasattr(found, "last"):
            self.error(f"--from {found.first} is behind --to {found.last}")
        return found


def hosts_of(word):
    """The hosts of a word as 0-3,7, in its order."""
    if not re.fullmatch(r"\d{1,5}(-\d{1,5})?(,\d{1,5}(-\d{1,5})?)*", word, re.ASCII):
        raise argparse.ArgumentTypeError(f"`{word}`: numbers of hosts, as 0-3,7")
    found = []
    for part in word.split(","):
        low, _, high = part.partition("-")
        if int(high or low) < int(low):
            raise argparse.ArgumentTypeError(f"`{part}`: the lower host stands first")
        found += range(int(low), int(high or low) + 1)
    twice = next((host for host in found if found.count(host) > 1), None)
    if twice is not None:
        raise argparse.ArgumentTypeError(f"host {twice} is named twice")
    return found


def call_of(word):
    if not re.fullmatch(r"\d+\.\d+\.\d+", word, re.ASCII):
        raise argparse.ArgumentTypeError(f"`{word}` is no call, as 0.1.0")
    return word


def reader_of(name, keep_payloads=False):
    """The reader of a file, or of standard input (`-`)."""
    return Reader(opened(name), name_of(name), keep_payloads)


def say_if_cut(tool, reader):
    """One line where a trace has no last line: what is said of it may be of a part."""
    if reader.is_cut:
        print(f"{tool}: {reader.name}: no last line: the trace may be cut off", file=sys.stderr)


def check_hosts(reader, hosts):
    """Refuses a host that the trace hasn't."""
    if any(host >= reader.hosts for host in hosts or ()):
        raise Refusal(
            f"{reader.name}: there are hosts 0 to {reader.hosts - 1}"
            if reader.hosts
            else f"{reader.name}: there are no hosts"
        )


def check_calls(reader, wanted, known):
    """Refuses a call that the trace hasn't."""
    for call in wanted:
        if call not in known:
            names = sorted(known, key=lambda it: [int(part) for part in it.split(".")])
            some = (
                f"{len(names):,} calls, {names[0]} to {names[-1]}"
                if len(names) > 1
                else f"one call, {names[0]}"
                if names
                else "no calls"
            )
            raise Refusal(f"{reader.name}: no call {call}: {some}")
