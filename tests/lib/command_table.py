"""The commands of `bakerystore` and their options, as the sources of the crate command_line have them.

The commands come from the table COMMANDS, the common options from `program.rt`, and the names of pages from `pages.rt`. The
general page describes each option. A source that is not understood raises a `ValueError`.
"""

import functools
import re
from typing import NamedTuple

from lib.places import TOP

SOURCES = TOP / "crates" / "command_line" / "src"
ROW_TYPE = ["(", "&", "str", ",", "Engine", ",", "InputMode", ",", "&", "[", "&", "str", "]", ",", "&", "str", ",", "&", "str", ")"]
TOKEN = re.compile(r'\s*(?:(?P<comment>//[^\n]*)|(?P<token>"(?:[^"\\]|\\.)*"|\w+(?:::\w+)*|[^\s\w"]))', re.S)
ESCAPES = {r"\"": '"', r"\\": "\\", r"\n": "\n", r"\t": "\t"}
OPTION = re.compile(r"  --(?P<name>[a-z][a-z-]*)(?: (?P<value>[A-Z]+))?  +(?P<text>\S.*)")
# the options that have a value, each with the words that it takes besides a number
VALUE_WORDS = {"at": ("end",), "from": (), "to": ()}


class Command(NamedTuple):
    """A command: its name, the names of its own options without dashes, what it is, and what follows it in an example."""

    name: str
    options: tuple
    about: str
    example: str


class Option(NamedTuple):
    """An option: its name without dashes, the name and the words of its value (empty if it has none), and its description."""

    name: str
    value: str
    words: tuple
    text: str

    def summary(self):
        """Returns the first clause of the description."""
        return re.split(r"[.;] ", self.text)[0]


@functools.cache
def source(name):
    """Returns the text of a source file of the crate."""
    return (SOURCES / name).read_text()


def found(shape, text, what):
    """Returns the match of a shape in a text. The error of an absent shape has the name `what`."""
    match = re.search(shape, text, re.M | re.S)
    if not match:
        raise ValueError(f"{SOURCES.relative_to(TOP)}: no {what} found")
    return match


def tokens_of(text):
    """Returns the tokens of an expression without its comments."""
    tokens, at = [], 0
    text = text.rstrip()
    while at < len(text):
        match = TOKEN.match(text, at)
        if not match:
            raise ValueError(f"COMMANDS: not understood: {text[at:at + 60]!r}")
        tokens += [match["token"]] * bool(match["token"])
        at = match.end()
    return tokens


def is_text(token):
    return token.startswith('"')


def text_of(token):
    """Returns the text of a string literal."""

    def unescaped(match):
        if match[0] not in ESCAPES:
            raise ValueError(f"COMMANDS: unknown escape {match[0]} in {token}")
        return ESCAPES[match[0]]

    return re.sub(r"\\.", unescaped, token[1:-1], flags=re.S)


def fields_of(tokens):
    """Returns the fields of a row or a list, each as its tokens: brackets keep commas together."""
    fields, depth = [[]], 0
    for token in tokens:
        depth += (token in "([") - (token in ")]")
        if token == "," and depth == 0:
            fields.append([])
        else:
            fields[-1].append(token)
    # a comma may follow the last field
    return fields if fields[-1] else fields[:-1]


def command_of(row):
    """Returns the command of a row, given as the tokens of one field of the table."""
    fields = fields_of(row[1:-1]) if row[0] == "(" and row[-1] == ")" else []
    shapes = [[is_text(token) for token in field] for field in fields]
    if len(fields) != 6 or any(shapes[at] != [True] for at in (0, 4, 5)) or fields[3][:2] != ["&", "["] or fields[3][-1] != "]":
        raise ValueError(f"COMMANDS: a row is not understood: {' '.join(row)}")
    options = fields_of(fields[3][2:-1])
    if any(len(option) != 1 or not is_text(option[0]) for option in options):
        raise ValueError(f"COMMANDS: the options of a row are not understood: {' '.join(row)}")
    name, about, example = (text_of(fields[at][0]) for at in (0, 4, 5))
    return Command(name, tuple(text_of(option[0]) for option in options), about, example)


def commands_in(text):
    """Returns the commands of the table in the text of a source file."""
    table = found(r"^pub const COMMANDS: \[(.*?); (\d+)\] = \[(.*?)^\];", text, "table COMMANDS")
    if tokens_of(table[1]) != ROW_TYPE:
        raise ValueError(f"COMMANDS: the type of a row is not understood: {table[1]}")
    rows = [command_of(row) for row in fields_of(tokens_of(table[3]))]
    if len(rows) != int(table[2]) or len({row.name for row in rows}) != len(rows):
        raise ValueError(f"COMMANDS: {table[2]} rows of different names wanted, found {[row.name for row in rows]}")
    return rows


@functools.cache
def commands():
    """Returns the commands in the order of the table."""
    return commands_in(source("commands.rt"))


def body_of(file, name):
    """Returns the text of a function, from its head to its closing brace at the margin or the margin of its block."""
    return found(rf"^(?P<indent> *)(?:pub )?fn {name}\b.*?^(?P=indent)\}}$", source(file), f"function {name} in {file}")[0]


def names_in(shape, file, function):
    """Returns the names in the list that has this shape within a function."""
    return tuple(re.findall(r'"([a-z-]+)"', found(shape, body_of(file, function), f"list of options in {function} of {file}")[1]))


def common_options():
    """Returns the options that each command has which runs a file, besides `help`."""
    return names_in(r"&(\[[^]]*\])", "program.rt", "plain_command")


def options_of_help():
    """Returns the options of the command `help`, besides `help`."""
    return names_in(r"&(\[[^]]*\])", "program.rt", "help")


def options_of_program():
    """Returns the options of the program itself, besides `help` and `version`."""
    added = re.findall(r"\.arg\((.*)\)$", body_of("program.rt", "bare_program"), re.M)
    flags = [re.fullmatch(r'flag\(alloc, "([a-z-]+)"\)', argument) for argument in added]
    if not all(flags):
        raise ValueError(f"program.rt: the options of the program are not understood: {added}")
    return tuple(flag[1] for flag in flags)


def options_of(command):
    """Returns all options of a command besides `help`: its own, then the common ones."""
    return (*command.options, *common_options())


def pages():
    """Returns the names that `help` takes: each command, then the other pages."""
    others = re.findall(r'^ *"([a-z-]+)" => Some\(HelpPage::', body_of("pages.rt", "named"), re.M)
    if not others:
        raise ValueError("pages.rt: no page found beside those of commands")
    return [*(command.name for command in commands()), *others]


def constant(file, name):
    """Returns the text of a constant that is a raw string."""
    return found(rf'^(?:pub )?const {name}: &str =\s+r"([^"]*)";$', source(file), f"constant {name} in {file}")[1]


def summary_of(words):
    """Returns the description of these words in the general page, where they begin a line."""
    return found(rf"^  {re.escape(words)}  +(\S.*?)$", constant("help.rt", "MORE_WORDS"), f"line of the general page for {words!r}")[1]


def abouts():
    """Returns each name that `help` takes, with what its page is about."""
    by_command = {command.name: command.about for command in commands()}
    general = {"help": "the general page"}
    return {name: by_command.get(name) or general.get(name) or summary_of(f"help {name}") for name in pages()}


def entries():
    """Returns the lines of the general page that describe options, each joined with its continuation lines, as matches."""
    joined = []
    for line in found(r"^Options:\n\n(.*?)\n\n", constant("help.rt", "MORE_WORDS"), "options of the general page")[1].split("\n"):
        if line.startswith("   "):
            joined[-1] += " " + line.strip()
        else:
            joined.append(line)
    return [match for line in joined if (match := OPTION.fullmatch(line))]


def described(match):
    """Returns the option of a line. The commands that it names before a colon are those that have it."""
    name, before, text = match["name"], *match["text"].partition(": ")[::2]
    owners = [command.name for command in commands() if name in command.options]
    if owners and before.split(", ") != owners:
        raise ValueError(f"help.rt: --{name} is an option of {', '.join(owners)}, and its description begins with {before!r}")
    words = VALUE_WORDS.get(name, ())
    if bool(match["value"]) != (name in VALUE_WORDS) or any(f"`{word}`" not in match["text"] for word in words):
        raise ValueError(f"help.rt: the value of --{name} is not understood: {match[0]!r}")
    return Option(name, match["value"] or "", words, text if owners else match["text"])


@functools.cache
def options():
    """Returns each option by its name, with the description that the general page gives."""
    by_name = {match["name"]: described(match) for match in entries()}
    used = {*options_of_program(), *options_of_help(), *common_options(), *(name for command in commands() for name in command.options)}
    if used != by_name.keys():
        raise ValueError(f"help.rt: options without a description, or without a command: {sorted(used ^ by_name.keys())}")
    valued = set(re.findall(r'name == "([a-z-]+)"', body_of("program.rt", "option")))
    if valued != {name for name, option in by_name.items() if option.value}:
        raise ValueError(f"program.rt: the options {sorted(valued)} have a value, and the general page shows others")
    return by_name
