"""Makes the scripts by which bash, zsh and fish complete the words of `bakerystore`, from `command_table`.

Each script offers commands as the first word, the files and the options of a command, the pages of `help`, and the words that are
values of options. An option on the line is not offered again, `--` ends the options, and nothing follows `--help` or `--version`.
"""

from lib import command_table

PROGRAM = "bakerystore"
HELP, VERSION, QUIET = "help", "version", "quiet"
# the short name of each option that has one
SHORT = {HELP: "h", VERSION: "V"}
PRINTS_PAGE = "print the page of this command"
PRINTS_WORDS = "print the general page"
PRINTS_VERSION = "print the version"
PRINTS_ANY_PAGE = "prints a page of help"
FILE = "file, or - for standard input"

BASH = """\
# Completes the words of bakerystore in bash.
#
# To use it, add `source FILE` with the path of this file to ~/.bashrc. If the package bash-completion is installed, you
# can instead copy the file as bakerystore to ~/.local/share/bash-completion/completions.

_bakerystore() {
    local line=${COMP_LINE:0:COMP_POINT} words=() prefix='' gap word i
    COMPREPLY=()
    # Bash divides words at characters such as = and :, which file names may contain. Parts without a gap are joined.
    for ((i = 0; i <= COMP_CWORD; i++)); do
        gap=${line%%[![:blank:]]*}
        line=${line#"$gap"}
        word=${COMP_WORDS[i]}
        ((i < COMP_CWORD)) || word=$line
        line=${line#"$word"}
        if [[ $gap ]] || ((i == 0)); then
            prefix=''
            words+=("$word")
        else
            prefix=${words[-1]}
            words[-1]+=$word
        fi
    done
    local current=${words[-1]}
    [[ $word && $word != *[!=:]* ]] && prefix=$current

    # Reads the words before the cursor. `value` is an option whose value is next, `target` a redirection without its file.
    local command='' given='' ended='' value='' target='' used=' '
    for word in "${words[@]:1:${#words[@]}-2}"; do
        if [[ $target ]]; then
            target=''
        elif [[ $value ]]; then
            value=''
        elif [[ $word =~ ^[0-9]*[\\<\\>]+$ ]]; then
            target=$word
        elif [[ $word =~ ^[0-9]*[\\<\\>] ]]; then
            continue
        elif [[ ! $ended && $word == -- ]]; then
            ended=1
        elif [[ ! $ended && $word == -?* ]]; then
            used+="${word%%=*} "
            case $word in
                @LAST@) return 0 ;;
                @VALUED@) value=$word ;;
            esac
        elif [[ ! $command ]]; then
            command=$word
        else
            given=1
        fi
    done

    local offered=() options=() short=() files=''
    if [[ $target ]]; then
        files=1
    elif [[ $current =~ ^[0-9]*[\\<\\>]+ ]]; then
        current=${current#"${BASH_REMATCH[0]}"}
        prefix=''
        files=1
    elif [[ $value ]]; then
        case $value in
@VALUES@
        esac
    elif [[ ! $command ]]; then
        [[ $ended ]] && return 0
        offered=(@COMMANDS@)
        options=(@OPTIONS@)
        short=(@SHORT@)
        [[ $current ]] || offered+=("${options[@]}")
    else
        case $command in
@CASES@
            *) return 0 ;;
        esac
        [[ $given ]] && offered=() files=''
        if [[ $ended ]]; then
            options=() short=()
        elif [[ $current == -* ]]; then
            files=''
        fi
    fi

    if [[ $files ]]; then
        compopt -o filenames 2>/dev/null
        while IFS= read -r word; do
            COMPREPLY+=("${word#"$prefix"}")
        done < <(compgen -f -- "$current")
        return 0
    fi
    [[ ${#offered[@]} -eq 0 || $current == -* ]] && offered+=("${options[@]}")
    [[ $current == -[!-]* ]] && offered+=("${short[@]}")
    case $current in
@JOINED@
    esac
    for word in "${offered[@]}"; do
        if [[ $word == "$current"* && $used != *" $word "* ]]; then
            COMPREPLY+=("${word#"$prefix"}")
        fi
    done
}

complete -F _bakerystore bakerystore
"""

ZSH = """\
#compdef bakerystore
# Completes the words of bakerystore in zsh.
#
# To use it, copy this file as _bakerystore to a folder of $fpath, such as /usr/local/share/zsh/site-functions, and start
# zsh again. Your ~/.zshrc must run compinit.

local curcontext=$curcontext context state state_descr line ret=1
local -A opt_args
local -a commands pages quiet

commands=(
@COMMANDS@
)
pages=(
@PAGES@
)
quiet=(@QUIET@)

_arguments -S -C \\
@OPTIONS@
    $quiet \\
    '1: :->command' \\
    '*:: :->rest' && ret=0

case $state in
    (command)
        (( ${words[(I)--]} )) || _describe -t commands command commands && ret=0
        ;;
    (rest)
        curcontext=${curcontext%:*:*}:bakerystore-$words[1]:
        # An option before the command is not offered again after it.
        (( $+opt_args[--quiet] )) && quiet=()
        case $words[1] in
@CASES@
        esac
        if [[ $state == page ]]; then
            _describe -t pages page pages && ret=0
        fi
        ;;
esac

return ret
"""

FISH = """\
# Completes the words of bakerystore in fish.
#
# To use it, copy this file as bakerystore.fish to ~/.config/fish/completions. The program must be on the PATH.

# Returns whether the first argument may come at the cursor: `command`, `argument` (a file or a page) or an option. The
# other arguments are the commands that have it; '' means that no command has been given.
function __bakerystore_may
    set -l what $argv[1]
    set -l commands $argv[2..-1]
    set -l command ''
    set -l used
    set -l value ''
    set -l ended no
    set -l given no
    for word in (commandline -opc)[2..-1]
        if test -n "$value"
            set value ''
        else if test $ended = no -a "$word" = --
            set ended yes
        else if test $ended = no; and string match -qr '^-.' -- $word
            set -a used (string replace -r '=.*' '' -- $word)
            contains -- $word @VALUED@; and set value $word
        else if test -z "$command"
            set command $word
        else
            set given yes
        end
    end
    for word in @LAST@
        contains -- $word $used; and return 1
    end
    contains -- "$command" $commands; or return 1
    # The value of an option is offered where the option may come.
    if test -n "$value"
        test $what = "$value"
        return
    end
    switch $what
        case command
            test $ended = no
        case argument
            test $given = no
        case '*'
            test $ended = no; and not contains -- $what $used
    end
end

complete -c bakerystore -f
@LINES@
"""


def filled(text, parts):
    """Returns a text with its parts in place of their names between `@`."""
    for name, part in parts.items():
        text = text.replace(f"@{name}@", part)
    return text


def in_quotes(text):
    """Returns a word that a POSIX shell and zsh read as this text."""
    return "'" + text.replace("'", r"'\''") + "'"


def in_fish_quotes(text):
    """Returns a word that fish reads as this text."""
    return "'" + text.replace("\\", r"\\").replace("'", r"\'") + "'"


def long_names(names):
    return " ".join(f"--{name}" for name in names)


def short_names(names):
    return " ".join(f"-{SHORT[name]}" for name in names if name in SHORT)


def valued_options():
    """Returns the options that have a value."""
    return [option for option in command_table.options().values() if option.value]


def last_words():
    """Returns the options after which nothing is read."""
    return [word for name in (HELP, VERSION) for word in (f"--{name}", f"-{SHORT[name]}")]


def groups():
    """Returns the options of commands, each with the names of the commands that have them."""
    found = {}
    for command in command_table.commands():
        found.setdefault(command_table.options_of(command), []).append(command.name)
    return found


def bash_case(names, offered, options, files):
    """Returns the case of commands with the same options."""
    sets = [f"options=({long_names(options)})", f"short=({short_names(options)})"]
    sets += [f"offered=({offered})"] * bool(offered) + ["files=1"] * files
    lines = [" " * 12 + f"{' | '.join(names)})", *(" " * 16 + line for line in sets), " " * 16 + ";;"]
    return "\n".join(lines)


def bash():
    """Returns the script for bash; it needs version 4.3 or later, and nothing else."""
    cases = [bash_case(names, "", (*options, HELP), True) for options, names in groups().items()]
    cases.append(bash_case([HELP], " ".join(command_table.pages()), (*command_table.options_of_help(), HELP), False))
    own = (*command_table.options_of_program(), HELP, VERSION)
    valued = valued_options()
    joined = [f"        --{it.name}=*) offered=({' '.join(f'--{it.name}={word}' for word in it.words)}) ;;" for it in valued]
    parts = {
        "LAST": " | ".join(last_words()),
        "VALUED": " | ".join(f"--{it.name}" for it in valued),
        "VALUES": "\n".join(f"            --{it.name}) offered=({' '.join(it.words)}) ;;" for it in valued),
        "COMMANDS": " ".join([*(command.name for command in command_table.commands()), HELP]),
        "OPTIONS": long_names(own),
        "SHORT": short_names(own),
        "CASES": "\n".join(cases),
        "JOINED": "\n".join(joined),
    }
    return filled(BASH, parts)


def zsh_text(text):
    """Returns a description or a message as `_arguments` reads it."""
    for mark in "\\:[]":
        text = text.replace(mark, "\\" + mark)
    return text


def zsh_option(name):
    """Returns what `_arguments` reads of an option."""
    option = command_table.options()[name]
    summary = zsh_text(option.summary())
    # the action of one space offers nothing, and shows the name of the value
    action = f"({' '.join(option.words)})" if option.words else " "
    value = f"=[{summary}]:{zsh_text(option.value)}:{action}" if option.value else f"[{summary}]"
    return in_quotes(f"--{name}{value}")


def zsh_last(name, summary):
    """Returns what `_arguments` reads of an option after which nothing is read: it excludes all others and all arguments."""
    return f"'(- : *)'{{-{SHORT[name]},--{name}}}{in_quotes(f'[{summary}]')}"


def zsh_case(names, options, argument, page=PRINTS_PAGE):
    """Returns the case of commands with the same options; `page` is what `help` prints after them."""
    specs = ["$quiet"] + [zsh_option(name) for name in options if name != QUIET]
    lines = [f"({'|'.join(names)})", "    _arguments -S -C \\"]
    lines += [f"        {spec} \\" for spec in [*specs, zsh_last(HELP, page)]] + [f"        {argument} && ret=0", "    ;;"]
    return "\n".join(" " * 12 + line for line in lines)


def zsh_rows(abouts):
    """Returns the elements that `_describe` reads."""
    return "\n".join(f"    {in_quotes(f'{name}:{about}')}" for name, about in abouts.items())


def zsh():
    """Returns the script for zsh."""
    cases = [zsh_case(names, options, in_quotes(f"1:{FILE}:_files")) for options, names in groups().items()]
    cases.append(zsh_case([HELP], command_table.options_of_help(), "'1: :->page'", PRINTS_WORDS))
    options = [zsh_option(name) for name in command_table.options_of_program() if name != QUIET]
    options += [zsh_last(HELP, PRINTS_WORDS), zsh_last(VERSION, PRINTS_VERSION)]
    parts = {
        "COMMANDS": zsh_rows({**{command.name: command.about for command in command_table.commands()}, HELP: PRINTS_ANY_PAGE}),
        "PAGES": zsh_rows(command_table.abouts()),
        "QUIET": zsh_option(QUIET),
        "OPTIONS": "\n".join(f"    {option} \\" for option in options),
        "CASES": "\n".join(cases),
    }
    return filled(ZSH, parts)


def fish_line(what, owners, *words, about=""):
    """Returns a line that offers something where it may come: after one of the commands, or before a command if it is ''."""
    asked = " ".join(owner or "''" for owner in owners)
    told = ["-d", in_fish_quotes(about)] if about else []
    return " ".join(["complete -c", PROGRAM, "-n", f'"__bakerystore_may {what} {asked}"', *words, *told])


def fish_option(name, owners, about=""):
    """Returns the line of an option."""
    option = command_table.options().get(name)
    short = ["-s", SHORT[name]] if name in SHORT else []
    value = ["-x", "-a", in_fish_quotes(" ".join(option.words))] if option and option.value else []
    return fish_line(f"--{name}", owners, "-l", name, *short, *value, about=about or option.summary())


def fish():
    """Returns the script for fish."""
    names = [command.name for command in command_table.commands()]
    offered = [*((command.name, command.about) for command in command_table.commands()), (HELP, PRINTS_ANY_PAGE)]
    lines = [fish_line("command", [""], "-a", name, about=about) for name, about in offered]
    lines += [fish_line("argument", [HELP], "-a", name, about=about) for name, about in command_table.abouts().items()]
    lines += [fish_line("argument", names, "-F")]
    for name in command_table.options():
        owners = [""] * (name in command_table.options_of_program())
        owners += [command.name for command in command_table.commands() if name in command_table.options_of(command)]
        owners += [HELP] * (name in command_table.options_of_help())
        lines.append(fish_option(name, owners))
    lines += [fish_option(HELP, ["", HELP], PRINTS_WORDS), fish_option(HELP, names, PRINTS_PAGE)]
    lines += [fish_option(VERSION, [""], PRINTS_VERSION)]
    parts = {
        "VALUED": long_names(it.name for it in valued_options()),
        "LAST": " ".join(last_words()),
        "LINES": "\n".join(lines),
    }
    return filled(FISH, parts)
