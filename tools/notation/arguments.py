"""The words on the command line: a command, its files and its options."""

from typing import NamedTuple

from .fields import Trouble
from .slips import meant, quoted, unknown

COUNTS = ("no", "one", "two", "three")


class Command(NamedTuple):
    """What a command takes. A file in brackets may be left out."""

    run: object
    files: tuple
    flags: tuple = ()
    values: tuple = ()  # options with a word behind them


class Given(NamedTuple):
    """A command with what was given to it."""

    run: object
    files: list
    options: dict

    def flag(self, name):
        return name in self.options

    def number(self, name, otherwise, most):
        """The number behind an option, from 1 to `most`."""
        word = self.options.get(name)
        if word is None:
            return otherwise
        if not word.isascii() or not word.isdigit() or len(word) > 9 or not 1 <= int(word) <= most:
            raise Trouble(f"{name} takes the number of a record, from 1 to {most}, not {quoted(word)}")
        return int(word)


def read_arguments(words, commands):
    """The command that `words` ask for."""
    if not words:
        raise Trouble(f"which command? There are {', '.join(commands)}")
    name, *rest = words
    if name not in commands:
        raise Trouble(unknown(name, "command", list(commands)))
    command = commands[name]
    files, options = [], {}
    rest = iter(rest)
    for word in rest:
        if not word.startswith("-") or word == "-":
            files.append(word)
        elif word in command.flags:
            options[word] = True
        elif word in command.values:
            options[word] = _value_of(name, word, rest)
        else:
            raise Trouble(_no_option(name, word, command))
    _demand_files(name, files, command)
    return Given(command.run, files, options)


def _value_of(name, word, rest):
    value = next(rest, None)
    if value is None:
        raise Trouble(f"{name}: something is missing behind {word}")
    return value


def _no_option(name, word, command):
    known = [*command.flags, *command.values]
    hint = meant(word, known) or (f"there are {', '.join(known)}" if known else "it takes none")
    return f"{name} has no option {quoted(word)}: {hint}"


def _demand_files(name, files, command):
    least = sum(not file.startswith("[") for file in command.files)
    if not least <= len(files) <= len(command.files):
        plural = "file" if len(command.files) == 1 else "files"
        raise Trouble(f"{name} takes {COUNTS[len(command.files)]} {plural}, {' '.join(command.files)}, "
                      f"and {len(files)} {'is' if len(files) == 1 else 'are'} given")
    if files.count("-") > 1:
        raise Trouble(f"{name}: standard input can be read only once, and - stands for it twice")
