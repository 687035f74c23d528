"""Completions of the arguments of a program for bash, zsh and fish, made from what it says to --help."""
from __future__ import annotations

import re
from dataclasses import dataclass, field

# An option's line: flags with a word for the value; after two blanks what it does, if that isn't below it.
OPTION = re.compile(r"^\s{2,}(-\S.*?)(?:\s{2,}(.*))?$")
CHOICES = re.compile(r"\[possible values: ([^]]*)\]")


@dataclass(frozen=True)
class Option:
    flags: tuple[str, ...]
    takes_value: bool
    choices: tuple[str, ...]
    help: str


def choices_of(value: str, text: str) -> tuple[str, ...]:
    """What the value can be, if the help says it: as [possible values: 24, 31], {24,31} or 24|31."""
    found = CHOICES.search(text)
    if found:
        return tuple(found[1].split(", "))
    inner = value.strip("{}<>")
    # Capitals stand for what is to be written, as [T,]N.
    return tuple(re.split(r"[|,]", inner)) if re.fullmatch(r"[a-z\d_.]+([|,][a-z\d_.]+)+", inner) else ()


def option_of(flags: str, text: str) -> Option:
    parts = [part.split(maxsplit=1) for part in flags.split(", ") if part.startswith("-")]
    value = next((part[1] for part in parts if len(part) > 1), "")
    return Option(tuple(part[0] for part in parts), bool(value), choices_of(value, text),
                  re.sub(r"\s*\[(default|possible values): [^]]*\]", "", text))


def options_of(help_text: str) -> list[Option]:
    """The options that a help text has a line for, each once."""
    found: list[tuple[str, str]] = []
    for line in help_text.split("\n"):
        match = OPTION.match(line)
        if match and re.match(r"-\w|--\w", match[1]):
            found.append((match[1], match[2] or ""))
        elif found and re.match(r"\s{16,}\S", line):
            flags, text = found[-1]
            found[-1] = (flags, f"{text} {line.strip()}".strip())
    return list({option.flags: option for option in (option_of(flags, text) for flags, text in found)}.values())


def quoted(text: str) -> str:
    """A word of a shell between apostrophes."""
    return "'" + text.replace("'", r"'\''") + "'"


def compgen(how: str) -> str:
    """What bash gives for the word that is being written."""
    return f'mapfile -t COMPREPLY < <(compgen {how} -- "$word")'


@dataclass(frozen=True)
class Program:
    """What is completed: a program's options, and of each of its commands what it does and its options."""
    name: str
    options: list[Option]
    commands: dict[str, tuple[str, list[Option]]] = field(default_factory=dict)


def program_of(name: str, help_text: str, commands: dict[str, str]) -> Program:
    """A program by its help, and its commands by theirs, whose first line says what each does."""
    return Program(name, options_of(help_text),
                   {it: (text.split("\n")[0].rstrip("."), options_of(text)) for it, text in commands.items()})


def bash_options(options: list[Option]) -> list[str]:
    """Completes the value of the option before the word, or the word as an option or a file."""
    lines = ["  case $before in"]
    for option in options:
        if option.takes_value:
            words = " ".join(option.choices)
            act = f"{compgen('-W ' + quoted(words))}; return" if words else "return"
            lines.append(f"    {' | '.join(option.flags)}) {act} ;;")
    flags = " ".join(flag for option in options for flag in option.flags)
    return [*lines, "  esac", "  case $word in", f"    -*) {compgen('-W ' + quoted(flags))} ;;",
            f"    *) compopt -o filenames 2>/dev/null; {compgen('-f')} ;;", "  esac"]


def bash(program: Program) -> str:
    function = "_" + program.name.replace("-", "_")
    lines = ["# Completions for bash. Without bash-completion: source this file.", f"{function}() {{",
             "  local word=$2 before=$3", "  COMPREPLY=()"]
    if program.commands:
        flags = " ".join(flag for option in program.options for flag in option.flags)
        lines += ["  case $COMP_CWORD,$word in", f"    1,-*) {compgen('-W ' + quoted(flags))}; return ;;",
                  f"    1,*) {compgen('-W ' + quoted(' '.join(program.commands)))}; return ;;", "  esac",
                  "  case ${COMP_WORDS[1]} in"]
        for name, (_, options) in program.commands.items():
            lines += [f"  {name})", *bash_options(options), "  ;;"]
        lines.append("  esac")
    else:
        lines += bash_options(program.options)
    return "\n".join([*lines, "}", f"complete -F {function} {program.name}"]) + "\n"


def zsh_options(options: list[Option]) -> list[str]:
    words = []
    for option in options:
        text = re.sub(r"([\[\]:])", r"\\\1", option.help)
        value = ":value:" if option.takes_value else ""
        value += f"({' '.join(option.choices)})" if option.choices else ""
        words += [quoted(f"{flag}[{text}]{value}") for flag in option.flags]
    return words


def zsh(program: Program) -> str:
    def arguments(*words: str) -> str:
        return " \\\n  ".join(["_arguments -S", *words])

    lines = [f"#compdef {program.name}"]
    if program.commands:
        named = " ".join(f'{name}\\:"{text}"' for name, (text, _) in program.commands.items())
        lines += ["local curcontext=$curcontext state line",
                  arguments("-C", *zsh_options(program.options), quoted(f"1:command:(({named}))"),
                            quoted("*::argument:->arguments")) + " && return", "case $words[1] in"]
        lines += [f"{name})\n  {arguments(*zsh_options(options), quoted('*:file:_files'))} ;;"
                  for name, (_, options) in program.commands.items()]
        lines.append("esac")
    else:
        lines.append(arguments(*zsh_options(program.options), quoted("*:file:_files")))
    return "\n".join(lines) + "\n"


def fish_options(name: str, options: list[Option], when: str = "") -> list[str]:
    lines = []
    for option in options:
        words = [f"complete -c {name}", *([f"-n {quoted(when)}"] if when else [])]
        words += [f"-l {flag[2:]}" if flag.startswith("--") else f"-s {flag[1:]}" for flag in option.flags]
        words += ["-x"] if option.takes_value else []
        words += [f"-a {quoted(' '.join(option.choices))}"] if option.choices else []
        lines.append(" ".join([*words, f"-d {quoted(option.help)}"]))
    return lines


def fish(program: Program) -> str:
    lines, first = [f"# Completions of {program.name} for fish."], "__fish_use_subcommand" if program.commands else ""
    lines += [f"complete -c {program.name} -n {first} -f -a {name} -d {quoted(text)}"
              for name, (text, _) in program.commands.items()]
    lines += fish_options(program.name, program.options, first)
    for name, (_, options) in program.commands.items():
        lines += fish_options(program.name, options, f"__fish_seen_subcommand_from {name}")
    return "\n".join(lines) + "\n"
