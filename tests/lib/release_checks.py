"""Checks the manual page and the completion scripts of a release with the programs that users read and run them with.

Each function counts with the `Counter` that it is given. A check whose program is not installed prints a line and counts nothing.
"""

import os
import re
import shutil
import subprocess
from typing import NamedTuple

from lib import command_table

HEADING = re.compile(r"[A-Z][a-z ]*:")
HELP, VERSION, QUIET, EXPLAIN = "--help", "--version", "--quiet", "--explain"
ENVIRONMENT = {"PATH": os.environ.get("PATH", os.defpath), "LC_ALL": "C.UTF-8"}
# files and folders among which the completion of files is tried; none of them is the name of a command
FILES = ("a file", "another.record", "b=1.record", r"back\slash", "c:d", "-x")
FOLDERS = ("a folder",)
# bash reads the case from its arguments: the index of the word at the cursor, the line, and its words as bash divides them
# (`bind` sets readline up, without which bash takes no quotes off the names of files)
BASH_PROBE = """\
bind -v >/dev/null 2>&1
source "$1" && cd "$2" || exit 1
COMP_CWORD=$3 COMP_LINE=$4 COMP_POINT=${#4} COMP_WORDS=("${@:5}")
[[ $(complete -p bakerystore) =~ -F\\ ([A-Za-z_]+) ]] || exit 1
"${BASH_REMATCH[1]}" bakerystore "${COMP_WORDS[COMP_CWORD]}" "${COMP_WORDS[COMP_CWORD - 1]}"
for word in "${COMPREPLY[@]}"; do printf '%s\\0' "$word"; done
"""


class Case(NamedTuple):
    """The words of a line as bash divides them, of which the last is at the cursor, and the words that are to be offered. `line` is
    the line if it is not the words with a blank between any two."""

    words: list
    wanted: list
    line: str = ""


def is_installed(program, check):
    """Returns whether a program is installed; if it is not, prints that this is not checked."""
    found = shutil.which(program) is not None
    if not found:
        print(f"{program} is not installed: {check} is not checked", flush=True)
    return found


def ran(words, **options):
    """Runs a program to its end with nothing on standard input."""
    options = {"env": ENVIRONMENT, **options}
    return subprocess.run(words, stdin=subprocess.DEVNULL, capture_output=True, text=True, errors="replace", **options)


def man_page_is_clean(counter, page):
    """The formatter and the viewer of manual pages have no warning."""
    if is_installed("groff", "the manual page"):
        run = ran(["groff", "-man", "-Tutf8", "-ww", "-z", page])
        counter.compare("groff on the manual page", (run.returncode, run.stdout, run.stderr), (0, "", ""))
    if is_installed("man", "the manual page in man"):
        run = ran(["man", "--warnings", "-l", page])
        counter.compare("man on the manual page", (run.returncode, run.stderr, run.stdout != ""), (0, "", True))


def rendered_words(page):
    """Returns the words of a page of roff, as they are rendered in one long line for each paragraph."""
    run = ran(["groff", "-man", "-Tutf8", "-rLL=4000n", "-rHY=0", "-P-cbou", page])
    return run.stdout.split()


def after(words, block, at):
    """Returns the place after the first occurrence of a block of words, from a place on; none if it does not occur."""
    for start in range(at, len(words) - len(block) + 1):
        if words[start : start + len(block)] == block:
            return start + len(block)
    return None


def blocks_of(text):
    """Returns the words of each block of a help page. A heading, alone in its block, is a heading of the manual page, and the
    heading SYNOPSIS takes the place of the word `Usage:`."""
    for block in re.split(r"\n\n+", text.removeprefix("Usage:").strip()):
        yield block.removesuffix(":").upper().split() if HEADING.fullmatch(block) else block.split()


def man_page_has_every_word(counter, page, pages):
    """The words of each block of each help page follow each other in the rendered page, and its blocks are in their order."""
    if not is_installed("groff", "the text of the manual page"):
        return
    words = rendered_words(page)
    for name, text in pages.items():
        at, missing = 0, []
        for block in blocks_of(text):
            found = after(words, block, at)
            at, missing = (at, [*missing, " ".join(block)]) if found is None else (found, missing)
        counter.compare(f"blocks of the page {name!r} that the manual page lacks", missing, [])


def long(names):
    return [f"--{name}" for name in names]


def common_cases():
    """Returns the cases of words before a command, of the command `help`, and of an unknown command."""
    names, pages = [*(command.name for command in command_table.commands()), "help"], command_table.pages()
    own = [*long(command_table.options_of_program()), HELP, VERSION]
    of_help = [*long(command_table.options_of_help()), HELP]
    return [
        Case([""], names + own),
        *(Case([begin], [name for name in names if name.startswith(begin)]) for begin in ("re", "draw", "draw-", "h", "x")),
        Case(["-"], own),
        Case(["--v"], [VERSION]),
        *(Case([short], [short]) for short in ("-h", "-V")),
        Case([QUIET, ""], [word for word in names + own if word != QUIET]),
        *(Case([word, ""], []) for word in (HELP, VERSION, "-h", "-V", "--")),
        Case(["help", ""], pages),
        *(Case(["help", begin], [name for name in pages if name.startswith(begin)]) for begin in ("r", "f", "draw", "x")),
        Case(["help", "--"], of_help),
        Case(["help", QUIET, "-"], [word for word in of_help if word != QUIET]),
        Case(["help", "--", "r"], [name for name in pages if name.startswith("r")]),
        Case(["help", pages[0], ""], of_help),
        *(Case(["nocommand", begin], []) for begin in ("", "-", "a")),
    ]


def cases_of(command, files):
    """Returns the cases of a command that runs a file; `files` are the names of what is in the folder."""
    own = [*long(command_table.options_of(command)), HELP]
    starting = [name for name in files if name.startswith("a")]
    name = command.name
    return [
        Case([name, ""], files),
        Case([name, "a"], starting),
        Case([name, QUIET, "a"], starting),
        Case([name, ">", "a"], starting),
        Case([name, "another.record", ">", "a"], starting),
        *(Case([name, begin], own) for begin in ("-", "--")),
        *(Case([name, option, "--"], [word for word in own if word != option]) for option in (QUIET, EXPLAIN)),
        Case([QUIET, name, "--"], [word for word in own if word != QUIET]),
        Case([name, "another.record", ""], own),
        Case([name, "another.record", QUIET, "--"], [word for word in own if word != QUIET]),
        *(Case([name, HELP, begin], []) for begin in ("", "-")),
        Case([name, "--", ""], files),
        Case([name, "--", "-"], ["-x"]),
        Case([name, "--", "another.record", ""], []),
        Case([name, "b", "=", "1.r"], ["1.record"], f"{name} b=1.r"),
        Case([name, "c", ":"], ["d"], f"{name} c:"),
        Case([name, r"a\ fi"], ["a file"]),
        Case([name, '"a fi'], ["a file"]),
        *(case for option in command.options for case in cases_of_option(command, option)),
    ]


def cases_of_option(command, option):
    """Returns the cases of an option of a command."""
    word, values = f"--{option}", command_table.options()[option].words
    has_value = command_table.options()[option].value != ""
    own = [*long(command_table.options_of(command)), HELP]
    others = [each for each in own if each != word]
    if not has_value:
        return [Case([command.name, word, "--"], others)]
    return [
        Case([command.name, word, ""], [*values]),
        *(Case([command.name, word, value[:1]], [it for it in values if it.startswith(value[:1])]) for value in values),
        Case([command.name, word, "no-value"], []),
        Case([command.name, word, "="], [*values], f"{command.name} {word}="),
        Case([command.name, word, "7", "--"], others),
        Case([command.name, word, "=", "7", "--"], others, f"{command.name} {word}=7 --"),
    ]


def bash_offers(completion_file, folder, case):
    """Returns the words that the script offers in a case, or what went wrong."""
    line = f"bakerystore {case.line or ' '.join(case.words)}"
    words = [completion_file, folder, len(case.words), line, "bakerystore", *case.words]
    run = ran(["bash", "--norc", "--noprofile", "-c", BASH_PROBE, "bash", *map(str, words)], env={})
    return run.stdout.split("\0")[:-1] if (run.returncode, run.stderr) == (0, "") else (run.returncode, run.stderr)


def bash_completes(counter, completion_file, folder):
    """In bash the script offers what the table of commands has, and the files and folders that are made in this folder, which is
    empty before."""
    if not is_installed("bash", "the completion script of bash"):
        return
    for name in FILES:
        (folder / name).write_text("")
    for name in FOLDERS:
        (folder / name).mkdir()
    cases = [*common_cases(), *(case for command in command_table.commands() for case in cases_of(command, [*FILES, *FOLDERS]))]
    for case in cases:
        offered = bash_offers(completion_file, folder, case)
        found = sorted(offered) if isinstance(offered, list) else offered
        counter.compare(f"bash completes {case.line or case.words}", found, sorted(case.wanted))


def parses(counter, shell, completion_file):
    """The shell reads the whole script without a fault, and runs nothing of it."""
    if is_installed(shell, f"the completion script of {shell}"):
        run = ran([shell, "-n", completion_file])
        counter.compare(f"{shell} reads its completion script", (run.returncode, run.stdout, run.stderr), (0, "", ""))


def zsh_parses(counter, completion_file):
    """Zsh reads the script without a fault."""
    parses(counter, "zsh", completion_file)


def fish_parses(counter, completion_file):
    """Fish reads the script without a fault."""
    parses(counter, "fish", completion_file)
