"""The program's commands, as tests/commands.tsv lists them (tests/common.sh says what its columns are)."""
import collections
import os

Command = collections.namedtuple("Command", "name words kind plain")


def read_commands():
    path = os.path.join(os.path.dirname(os.path.abspath(__file__)), "..", "..", "commands.tsv")
    with open(path, encoding="utf-8") as table:
        next(table)
        return [Command(*line.rstrip("\n").split("\t")) for line in table]


COMMANDS = read_commands()
