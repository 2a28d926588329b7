"""docs/completions/make [--check] [PROGRAM]: makes the completions for bash, zsh and fish from the help of the program. With
--check it writes nothing, prints which of the three differs, and ends with 1 where one does."""
import re
from string import Template
from typing import Iterator

from ..options import Argument, Command, commands
from ..repository import Repository

FOLDER, MADE = "docs/completions", "Made by docs/completions/make."
HELP = Command("help", "Print the help of a command", [], [])
# What fish offers for an option by what it takes.
FISH = {"folder": " -r -a '(__fish_complete_directories)'", "file": " -r -F", "value": " -x", "": ""}


def bash(listed: list[Command]) -> dict[str, str]:
    valued = {it.name: it for command in listed for it in command.options if it.value}
    reply = 'mapfile -t COMPREPLY < <(compgen {} -- "$current")'.format
    actions = {"file": f'{reply("-f")}; ', "folder": f'{reply("-d")}; ', "value": ""}
    groups = [([name for name, it in valued.items() if it.takes == kind], action) for kind, action in actions.items()]
    values = [f"    --{' | --'.join(its)}) {action}return ;;" for its, action in groups if its]
    lines = []
    for command in listed:
        words = " ".join([*(f"--{it.name}" for it in command.options), "--help"])
        action = reply(f'{"-f " if command.takes_files else ""}-W "{words}"')
        lines.append(f"    {command.name}) {action} ;;")
    names = " ".join(it.name for it in listed)
    return {"names": names, "values": "\n".join(values), "commands": "\n".join(lines)}


def zsh_text(text: str) -> str:
    """A help's text in single quotes, where brackets and colons have a meaning of their own."""
    return re.sub(r"([\[\]:\\])", r"\\\1", text).replace("'", r"'\''")


def zsh_spec(it: Argument) -> str:
    """An argument as `_arguments` of zsh takes it."""
    words, value = zsh_text(it.help), zsh_text(it.value)
    action = {"folder": "_files -/", "file": "_files"}.get(it.takes, "")
    if it.is_word:
        return f"'*:{value}:{action}'" if value.endswith("..") else f"':{value} -- {words}:{action}'"
    return f"'--{it.name}[{words}]{f':{value}:{action}' if value else ''}'"


def zsh(listed: list[Command]) -> dict[str, str]:
    names = "\n".join(f"    '{it.name}:{zsh_text(it.about)}'" for it in [*listed, HELP])
    specs = {it.name: [*map(zsh_spec, it.arguments), "'--help[Print help]'"] for it in listed}
    lines = [" \\\n        ".join([f"    {name})\n      _arguments", *its]) for name, its in specs.items()]
    return {"names": names, "commands": "\n".join(f"{it} ;;" for it in lines)}


def fish_text(text: str) -> str:
    return "'" + text.replace("\\", "\\\\").replace("'", "\\'") + "'"


def fish(listed: list[Command]) -> Iterator[str]:
    first = "complete -c cutlab -n __fish_use_subcommand"
    yield f"# Completions of cutlab for fish: put this file where fish looks for completions. {MADE}"
    yield from ("", "complete -c cutlab -f")
    yield from (f"{first} -l {name} -d 'Print {name}'" for name in ("help", "version"))
    yield from (f"{first} -a {it.name} -d {fish_text(it.about)}" for it in [*listed, HELP])
    for command in listed:
        when = f"complete -c cutlab -n '__fish_seen_subcommand_from {command.name}'"
        yield from ["", f"{when} -F"] if command.takes_files else [""]
        for it in command.options:
            yield f"{when} -l {it.name}{FISH[it.takes]} -d {fish_text(it.help)}"
        yield f"{when} -l help -d 'Print help'"


def made(repository: Repository) -> dict[str, str]:
    listed, found = commands(repository), dict[str, str]()
    for name, shell, words in (("cutlab.bash", "bash", bash(listed)), ("_cutlab", "zsh", zsh(listed))):
        template = Template(repository.read(f"{FOLDER}/{shell}.template"))
        found[f"{FOLDER}/{name}"] = template.substitute(words, made=MADE)
    return found | {f"{FOLDER}/cutlab.fish": "".join(f"{line}\n" for line in fish(listed))}


def summary(repository: Repository) -> str:
    return f"of {len(commands(repository))} commands, for 3 shells"
