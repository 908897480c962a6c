"""Completions for bash, zsh and fish, made of what the programs themselves say of their words."""
import re
import shlex

COMMAND = re.compile(r"^  (\w+) (\S+)(.*?)  +(\S.*)$", re.M)
OPTION = re.compile(r"^  (--[\w-]+)(?: (\S+))?  +(\S.*)$", re.M)
VALUE = re.compile(r"(--[\w-]+)(?: ([A-Z]\w*))?")


class Words:
    """The words of a program: commands, each with what it takes and its text, and options with their values and texts."""

    def __init__(self, program, commands, options):
        self.program, self.commands, self.options = program, commands, options

    def options_of(self, command):
        return [it for it in self.options if it[0] in self.commands[command][0]]


def of_help(program, text):
    """By a help that has a line for each command and each option. `[OPTIONS]` of a command stands for all options."""
    options = [(name, value, said) for name, value, said in OPTION.findall(text)]
    commands = {}
    for name, command, takes, said in COMMAND.findall(text):
        if name == program:
            every = [it for it, _, _ in options] if "[OPTIONS]" in takes else []
            commands[command] = ([*every, *re.findall(r"[A-Z]+", takes.replace("[OPTIONS]", ""))], said)
    return Words(program, commands, options)


def of_usage(program, usage, manual):
    """By a usage line that has the commands, and the manual's lines that begin with the program and one of them."""
    commands, options = {it: ([], "") for it in re.fullmatch(rf"usage: {program} (\S+)\n", usage)[1].split("|")}, {}
    for command, takes in re.findall(rf"^    {program} (\w+)(.*)$", manual, re.M):
        if command in commands:
            found = VALUE.findall(takes.partition("<")[0].partition("#")[0])
            options.update({name: value for name, value in found if value or name not in options})
            commands[command][0].extend(name for name, _ in found if name not in commands[command][0])
    return Words(program, commands, [(name, value, "") for name, value in options.items()])


def bash(words):
    own, lines = f"_{words.program}", [f"# Completion of {words.program} for bash."]
    lines += [f"{own}() {{", "    local word=${COMP_WORDS[COMP_CWORD]} before=${COMP_WORDS[COMP_CWORD-1]} options= files="]
    lines += ["    COMPREPLY=()", "    if [ \"$COMP_CWORD\" = 1 ]; then"]
    lines += [f"        COMPREPLY=($(compgen -W {shlex.quote(' '.join(words.commands))} -- \"$word\"))", "        return", "    fi"]
    lines += ["    case ${COMP_WORDS[1]} in"]
    for command, (takes, _) in words.commands.items():
        files = "-f" if "FILE" in takes else "-d" if "DIR" in takes else ""
        names = " ".join(it for it, _, _ in words.options_of(command))
        lines.append(f"    {command}) options={shlex.quote(names)} files={files} ;;")
    lines += ["    esac", "    case $before in"]
    valued = "|".join(name for name, value, _ in words.options if value)
    lines += [f"    {valued}) return ;;"] if valued else []
    lines += ["    esac", "    case $word in", "    -*) COMPREPLY=($(compgen -W \"$options\" -- \"$word\")) ;;"]
    lines += ["    *) [ -z \"$files\" ] || COMPREPLY=($(compgen $files -- \"$word\")) ;;", "    esac", "}"]
    return "\n".join([*lines, f"complete -o filenames -F {own} {words.program}"]) + "\n"


def zsh_quoted(text):
    """A text within an argument of _arguments or _describe."""
    return text.replace("'", "'\\''").replace("[", "\\[").replace("]", "\\]").replace(":", "\\:")


def zsh(words):
    own = f"_{words.program}"
    lines = [f"#compdef {words.program}", f"{own}() {{", "    local -a commands", "    commands=("]
    lines += [f"        '{command}:{zsh_quoted(said)}'" for command, (_, said) in words.commands.items()]
    lines += ["    )", "    if (( CURRENT == 2 )); then", "        _describe command commands", "        return", "    fi"]
    lines += ["    local command=$words[2]", "    shift words", "    (( CURRENT-- ))", "    case $command in"]
    for command, (takes, _) in words.commands.items():
        found = []
        for name, value, said in words.options_of(command):
            found.append(f"'{name}[{zsh_quoted(said)}]{f':{zsh_quoted(value)}: ' if value else ''}'")
        if "DIR" in takes:
            found.append("'1:DIR:_directories'")
        if "FILE" in takes:
            found.append("'2:FILE:_files'")
        if found:
            lines += [f"    {command}) _arguments {' '.join(found)} ;;"]
    return "\n".join([*lines, "    esac", "}", f'{own} "$@"']) + "\n"


def fish(words):
    def quoted(text):
        return "'" + text.replace("\\", "\\\\").replace("'", "\\'") + "'"

    lines = [f"# Completion of {words.program} for fish.", f"complete -c {words.program} -f"]
    for command, (takes, said) in words.commands.items():
        told = f" -d {quoted(said)}" if said else ""
        lines.append(f"complete -c {words.program} -n __fish_use_subcommand -a {quoted(command)}{told}")
        within = f"complete -c {words.program} -n {quoted(f'__fish_seen_subcommand_from {command}')}"
        for name, value, text in words.options_of(command):
            lines.append(f"{within} -l {name[2:]}{' -x' if value else ''}{f' -d {quoted(text)}' if text else ''}")
        if "FILE" in takes:
            lines.append(f"{within} -F")
        elif "DIR" in takes:
            lines.append(f"{within} -a '(__fish_complete_directories)'")
    return "\n".join(lines) + "\n"
