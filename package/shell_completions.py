"""The completions of `dam` for bash, zsh and fish, made of its help. Those of `dam-desk` are files of `package/completions/`."""

import re
from collections.abc import Iterable, Mapping
from typing import NamedTuple

COMMANDS = re.compile(r"^Commands:\n((?: .*\n)+)", re.MULTILINE)
COMMAND = re.compile(r"^  (\w+) +(.*)$", re.MULTILINE)
OPTION = re.compile(r"^ +(?:-(\w), )?--(\w+)(?: <(\w+)>)? +(.*?)(?: \[default: .*\])?$", re.MULTILINE)
# Where each shell finds the completions of a command.
PLACES = {
    "bash": "share/bash-completion/completions/{}",
    "zsh": "share/zsh/vendor-completions/_{}",
    "fish": "share/fish/vendor_completions.d/{}.fish",
}

BASH = """\
# Completions for bash: the commands and options of dam.
_dam() {{
    local word=${{COMP_WORDS[COMP_CWORD]}} words=
    COMPREPLY=()
    if [ "$COMP_CWORD" -eq 1 ]; then
        words='{words}'
    else
        case ${{COMP_WORDS[1]}} in
{cases}
        esac
    fi
    COMPREPLY=($(compgen -W "$words" -- "$word"))
}}
# after `<`, bash completes the name of a file by itself
complete -F _dam -o bashdefault -o default dam
"""
ZSH = """\
#compdef dam
# Completions for zsh: the commands and options of dam.
local -a commands=(
{commands}
)
_arguments -C \\
{options} \\
    '1:command:{{_describe command commands}}' \\
    '*::option:->options'
if [[ $state = options ]]; then
    case $words[1] in
{cases}
    esac
fi
"""


class Option(NamedTuple):
    short: str  # a letter, or nothing
    name: str
    number: str  # the letter of its number, or nothing
    about: str


def commands_of_help(text: str) -> dict[str, str]:
    """The commands of the help of `dam`, each with its effect."""
    return dict(COMMAND.findall(COMMANDS.findall(text)[0]))


def options_of_help(text: str) -> list[Option]:
    """The options of a help."""
    return [Option(*found) for found in OPTION.findall(text)]


def quoted_for_shell(text: str) -> str:
    return "'" + text.replace("'", "'\\''") + "'"


def option_words(found: Iterable[Option]) -> str:
    return " ".join(f"--{option.name}" for option in found)


def bash_text(main: str, helps: Mapping[str, str]) -> str:
    cases = "\n".join(f"            {name}) words='{option_words(options_of_help(text))}' ;;" for name, text in helps.items())
    return BASH.format(words=f"{' '.join(helps)} {option_words(options_of_help(main))}", cases=cases)


def zsh_option_text(option: Option) -> str:
    """An option in the form of `_arguments`."""
    about = re.sub(r"([\[\]:])", r"\\\1", option.about)
    if option.short:
        return f"'(-{option.short} --{option.name})'{{-{option.short},--{option.name}}}" + quoted_for_shell(f"[{about}]")
    return quoted_for_shell(f"--{option.name}[{about}]" + (f":{option.number}:" if option.number else ""))


def zsh_text(main: str, helps: Mapping[str, str]) -> str:
    of = lambda text, indent: " \\\n".join(f"{indent}{zsh_option_text(option)}" for option in options_of_help(text))
    cases = "\n".join(f"        {name})\n            _arguments \\\n{of(text, ' ' * 16)} ;;" for name, text in helps.items())
    about = commands_of_help(main)
    rows = "\n".join("    " + quoted_for_shell(f"{name}:{about[name]}") for name in helps)
    return ZSH.format(commands=rows, options=of(main, " " * 4), cases=cases)


def fish_option_text(condition: str, option: Option) -> str:
    words = ["complete -c dam", *(["-x"] if option.number else [])]
    words += [f"-n {quoted_for_shell(condition)}"] if condition else []
    words += [f"-s {option.short}"] if option.short else []
    return " ".join([*words, f"-l {option.name} -d {quoted_for_shell(option.about)}"])


def fish_text(main: str, helps: Mapping[str, str]) -> str:
    about = commands_of_help(main)
    lines = ["# Completions for fish: the commands and options of dam."]
    lines += [fish_option_text("", option) for option in options_of_help(main)]
    lines += [f"complete -c dam -f -n __fish_use_subcommand -a {name} -d {quoted_for_shell(about[name])}" for name in helps]
    of_all = options_of_help(main)
    lines += [
        fish_option_text(f"__fish_seen_subcommand_from {name}", option)
        for name, text in helps.items()
        for option in options_of_help(text)
        if option not in of_all
    ]
    return "".join(f"{line}\n" for line in lines)


def completions_by_place(helps: Mapping[tuple[str, ...], str]) -> dict[str, bytes]:
    """The completions of `dam` by their place, from the helps of all commands by their words."""
    main, of_words = helps["dam",], {words[1]: text for words, text in helps.items() if words[0] == "dam" and len(words) == 2}
    texts = {"bash": bash_text(main, of_words), "zsh": zsh_text(main, of_words), "fish": fish_text(main, of_words)}
    return {PLACES[shell].format("dam"): text.encode() for shell, text in texts.items()}
