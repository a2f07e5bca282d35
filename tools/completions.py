"""The completions of `relayd` for bash, zsh and fish, as tools/command_pages.py writes them."""

from command_words import commands

MADE = "# Completion of relayd's command line for {}. `python3 tools/command_pages.py` makes it from the command line's tables."
HELP = "help"
ABOUT_HELP = "Prints the help of a command"

BASH = r"""{made}

# Files that begin so; bash quotes them, and writes a slash after a folder.
_relayd_files() {{
    compopt -o filenames 2>/dev/null
    mapfile -t COMPREPLY < <(compgen -f -- "$1")
}}

_relayd() {{
    local word=${{COMP_WORDS[COMP_CWORD]}} before=${{COMP_WORDS[COMP_CWORD-1]}} command=${{COMP_WORDS[1]}}
    COMPREPLY=()
    # bash takes the `=` of --config=FILE as a word of its own.
    if [ "$word" = = ]; then
        word=
    elif [ "$before" = = ]; then
        before=${{COMP_WORDS[COMP_CWORD-2]}}
    fi
    if [ "$COMP_CWORD" -eq 1 ]; then
        mapfile -t COMPREPLY < <(compgen -W "{commands} -h --help -V --version" -- "$word")
        return
    fi
    case $before in
{values}
    esac
    local options
    case $command in
{options}
        help)
            mapfile -t COMPREPLY < <(compgen -W "{commands}" -- "$word")
            return ;;
        *) return ;;
    esac
    if [[ $command == @({of_files}) && $word != -* ]]; then
        _relayd_files "$word"
    else
        mapfile -t COMPREPLY < <(compgen -W "$options -h --help" -- "$word")
    fi
}}

# The options of `relayd run`.
_relayd_supervised() {{
    COMP_WORDS=(relayd run "${{COMP_WORDS[@]:1}}")
    COMP_CWORD=$((COMP_CWORD + 1))
    _relayd
}}
complete -F _relayd relayd
complete -F _relayd_supervised relayd-supervised
"""

ZSH = r"""#compdef relayd relayd-supervised
{made}

_relayd() {{
    local -a commands help
    commands=(
{commands}
    )
    help=('(-h --help)'{{-h,--help}}'[print help]')
    # That has the options of `relayd run`.
    if [[ $service == relayd-supervised ]]; then
        words[1]=(relayd run)
        (( CURRENT++ ))
    fi
    if (( CURRENT == 2 )); then
        _arguments $help '(-V --version)'{{-V,--version}}'[print the version]' '1:command:(($commands))'
        return
    fi
    local command=$words[2]
    shift words
    (( CURRENT-- ))
    case $command in
{options}
        help) _describe command commands ;;
    esac
}}

_relayd "$@"
"""

FISH = r"""{head}
complete -c relayd -f
complete -c relayd -n __relayd_command -s V -l version -d 'Print the version'
complete -c relayd -n 'not __relayd_command help' -s h -l help -d 'Print help'

{commands}
complete -c relayd -n '__relayd_command help' -a '{names}'

{options}
"""


def names():
    """The names of all commands, that of the help too."""
    return [*(command.name for command in commands()), HELP]


def takes_files(word):
    """Whether its value is the name of a file."""
    return word.value in ("FILE", "SCRIPT")


def options_by(key):
    """The options of all commands that have a value, in order, once each, in lists by what `key` gives of them; of several of one
    name, by the first."""
    found, names = {}, set()
    for command in commands():
        for word in command.options():
            if word.value and word.name not in names:
                found.setdefault(key(word), []).append(word.name)
                names.add(word.name)
    return found


def bash_values():
    """The cases of the word before the one that is completed."""
    lines = []
    for (is_path, offered), group in options_by(lambda word: (word.value in ("FILE", "DIR"), tuple(word.offers()))).items():
        lines.append(f"        {'|'.join('--' + name for name in group)})")
        if is_path:
            lines.append('            _relayd_files "$word"')
        elif offered:
            lines.append(f'            mapfile -t COMPREPLY < <(compgen -W "{" ".join(offered)}" -- "$word")')
        lines.append("            return ;;")
    return "\n".join(lines)


def for_bash():
    """The completion for bash."""
    options = "\n".join(f'        {command.name}) options="{" ".join("--" + word.name for word in command.options())}" ;;'
                        for command in commands())
    of_files = "|".join(command.name for command in commands() if command.bare() and takes_files(command.bare()))
    return BASH.format(made=MADE.format("bash"), commands=" ".join(names()), values=bash_values(), options=options,
                       of_files=of_files)


def in_brackets(text):
    """A text as zsh takes it in the brackets of an option, within single quotes."""
    for sign in "\\[]:":
        text = text.replace(sign, "\\" + sign)
    return text.replace("'", "'\\''")


def zsh_option(word):
    """What the completion for zsh says of an option."""
    told = f"[{in_brackets(word.help)}]"
    if word.value is None:
        return f"'--{word.name}{told}'"
    files = {"FILE": "_files", "DIR": "_files -/"}.get(word.value, f"({' '.join(word.offers())})" if word.offers() else "")
    return f"'--{word.name}={told}:{word.value.lower()}:{files}'"


def zsh_bare(word):
    """What the completion for zsh says of a word without a name before it."""
    return f"'1:{word.value.lower()}:{'_files' if takes_files(word) else ''}'"


def for_zsh():
    """The completion for zsh."""
    listed = [(command.name, command.about) for command in commands()] + [(HELP, ABOUT_HELP)]
    told = "\n".join(f"        '{name}:{in_brackets(about)}'" for name, about in listed)
    cases = []
    for command in commands():
        words = [zsh_option(word) for word in command.options()] + [zsh_bare(word) for word in [command.bare()] if word]
        cases.append(f"        {command.name})\n            _arguments $help \\\n                "
                     + " \\\n                ".join(words) + " ;;")
    return ZSH.format(made=MADE.format("zsh"), commands=told, options="\n".join(cases))


def fish_text(text):
    """A text in single quotes."""
    return "'" + text.replace("\\", "\\\\").replace("'", "\\'") + "'"


def fish_value(word):
    """What the completion for fish says of the value of an option."""
    if word.value is None:
        return ""
    if word.value == "FILE":
        return " -r -F"
    offered = "(__fish_complete_directories)" if word.value == "DIR" else " ".join(word.offers())
    return f" -x -a '{offered}'" if offered else " -x"


def fish_options():
    """A line for each option, for all commands whose help says the same of it."""
    takers = {}
    for command in commands():
        for word in command.options():
            told = f"-l {word.name}{fish_value(word)} -d {fish_text(word.help)}"
            takers.setdefault(told, []).append(command.name)
        if command.bare() and takes_files(command.bare()):
            takers.setdefault("-F", []).append(command.name)
    return "\n".join(f"complete -c relayd -n '__relayd_command {' '.join(names)}' {told}" for told, names in takers.items())


def for_fish(text):
    """The completion for fish in the place of this text, whose lines above the first that completes stay."""
    head = text.partition("\ncomplete ")[0]
    listed = [(command.name, command.about) for command in commands()] + [(HELP, ABOUT_HELP)]
    told = "\n".join(f"complete -c relayd -n __relayd_command -a {name} -d {fish_text(about)}" for name, about in listed)
    return FISH.format(head=head, commands=told, names=" ".join(names()), options=fish_options())
