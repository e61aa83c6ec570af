"""The commands of `xv6` with their words, read from the tables of `crates/commandline`, as a man page and as completions."""
import dataclasses
import pathlib
import re

TOP = pathlib.Path(__file__).resolve().parent.parent
TABLES = TOP / "crates" / "commandline" / "src" / "declarations.rt"


@dataclasses.dataclass(frozen=True)
class Word:
    """A word of a command: its name, how it is given (Bare, Last, Each, Number, Count, Option, Flag, Letter, Short), with what, and its help."""

    name: str
    given: str
    value: str
    help: str

    @property
    def is_option(self):
        return self.given not in ("Bare", "Last", "Each")

    @property
    def spelled(self):
        """As it is written in a command line."""
        if self.given in ("Letter", "Short"):
            return f"-{self.value}" + (" OUT" if self.given == "Short" else "")
        if self.given == "Each":
            return f"{self.name}.."
        takes = {"Number": " N", "Flag": ""}.get(self.given, f" {self.value}")
        return f"--{self.name}{takes}" if self.is_option else self.name if self.given == "Bare" else f"[{self.name}]"


@dataclasses.dataclass(frozen=True)
class Command:
    name: str
    about: str
    example: str
    words: list


def text_of(literal):
    """What a string literal of Rust says."""
    return re.sub(r'\\(\n\s*|.)', lambda it: "" if it[1][0] == "\n" else {"n": "\n"}.get(it[1], it[1]), literal)


STRING = r'"((?:[^"\\]|\\.)*)"'
WORD = re.compile(rf"Word(?:<'static>)? *(?:= Word )?\{{\s*name: {STRING},\s*given: Given::(\w+)(?:\((?:{STRING}|'(.)')\))?,\s*help: {STRING},?\s*\}}", re.S)
DECLARED = re.compile(rf"Declared \{{\s*name: {STRING},\s*about: {STRING},\s*example: {STRING},\s*words: &(\w+),\s*\}}", re.S)


def read():
    """The commands in their order, the example of the whole, and nothing else."""
    text = TABLES.read_text()
    singles = {it[1]: word_of(WORD.search(it[0])) for it in re.finditer(r"const (\w+): Word<'static> = Word \{.*?^\};", text, re.M | re.S)}
    tables = {}
    for it in re.finditer(r"const (\w+): \[Word<'static>; \d+\] = \[(.*?)\];", text, re.S):
        parts = re.finditer(rf"{WORD.pattern}|\b([A-Z][A-Z_]+)\b", it[2], re.S)
        tables[it[1]] = [singles[part[part.lastindex]] if part[0] in singles else word_of(part) for part in parts]
    commands = [Command(text_of(it[1]), text_of(it[2]), text_of(it[3]), tables[it[4]]) for it in DECLARED.finditer(text)]
    wanted = int(re.search(r"const COMMANDS: \[Declared<'static>; (\d+)\]", text)[1])
    if len(commands) != wanted:
        raise SystemExit(f"{TABLES.name}: {len(commands)} commands were read, and there are {wanted}")
    return commands, text_of(re.search(rf"const EXAMPLE: &str = {STRING};", text, re.S)[1])


def word_of(it):
    return Word(text_of(it[1]), it[2], it[3] or it[4] or "", text_of(it[5]))


# ---- the man page


def roff(text):
    """A text in which troff sees no command."""
    return re.sub(r"^([.'])", r"\\&\1", text.replace("\\", "\\e").replace("-", "\\-"), flags=re.M)


def synopsis(command):
    """A command in one line."""
    words = [f"[{it.spelled}]" if it.is_option else it.spelled for it in command.words]
    return " ".join(["xv6", command.name, *words])


def man_page(version):
    """The man page `xv6.1`."""
    commands, example = read()
    lines = [f'.TH XV6 1 "" "xv6 {version}" "Cathompi"', ".SH NAME", "xv6 \\- xv6 as a pure machine that is proved correct", ".SH SYNOPSIS"]
    lines += [line for it in commands for line in (".br", roff(synopsis(it)))][1:]
    lines += [".SH DESCRIPTION", "The console's bytes go to standard output, all else to standard error."]
    lines += ["The machine is proved to do what an abstract Unix does, for every image, every number of frames and every list of events.", ".SH COMMANDS"]
    for it in commands:
        lines += [f".SS {roff(synopsis(it).split(' [')[0] if len(it.words) > 6 else synopsis(it))}", roff(it.about) + "."]
        for word in it.words:
            default = f" [{word.value}]" if word.given == "Number" else ""
            lines += [".TP", f".B {roff(word.spelled)}", roff(word.help) + default + "."]
        lines += [".PP", ".nf", roff(it.example), ".fi"]
    lines += [".SH EXIT STATUS", "0: the job was done. 1: it was not, and the last line says why. 2: the words are no job."]
    lines += [".SH EXAMPLES", ".nf", roff(example), ".fi"]
    return "\n".join(lines) + "\n"


# ---- completions


def options(command):
    """The options of a command as they are typed, with their helps."""
    return [(f"-{it.value}" if it.given in ("Letter", "Short") else f"--{it.name}", it.help, it) for it in command.words if it.is_option]


def bash():
    """Completions for bash."""
    commands, _ = read()
    names = " ".join(it.name for it in commands)
    cases = "\n".join(f"        {it.name}) words='{' '.join(word for word, _, _ in options(it))} --help' ;;" for it in commands)
    return f"""# Completions of xv6 for bash: source this file, or put it into /usr/share/bash-completion/completions as xv6.
_xv6() {{
    local word=${{COMP_WORDS[COMP_CWORD]}} words=
    if [ "$COMP_CWORD" -eq 1 ]; then
        COMPREPLY=($(compgen -W '{names} --help --version' -- "$word"))
        return
    fi
    case ${{COMP_WORDS[1]}} in
{cases}
    esac
    case $word in
        -*) COMPREPLY=($(compgen -W "$words" -- "$word")) ;;
        *) COMPREPLY=($(compgen -f -- "$word")) ;;
    esac
}}
complete -o filenames -F _xv6 xv6
"""


def quoted(text):
    return text.replace("'", "'\\''")


def zsh_option(word, says, how):
    """An option as `_arguments` of zsh takes it."""
    takes = f":{how.name}:_files" if how.given in ("Option", "Number", "Count", "Short") else ""
    return "'" + word + "[" + quoted(re.sub(r"([][:])", r"\\\1", says)) + "]" + takes + "'"


def zsh():
    """Completions for zsh."""
    commands, _ = read()
    names = "\n".join(f"        '{it.name}:{quoted(it.about)}'" for it in commands)
    cases = ""
    for it in commands:
        rows = [zsh_option(*option) for option in options(it)]
        cases += f"        {it.name}) _arguments {' '.join(rows)} '*:file:_files' ;;\n"
    return f"""#compdef xv6
# Completions of xv6 for zsh: put this file into a folder of $fpath as _xv6.
_xv6() {{
    local -a names=(
{names}
    )
    if (( CURRENT == 2 )); then
        _describe command names
        return
    fi
    local command=$words[2]
    shift words
    (( CURRENT-- ))
    case $command in
{cases}    esac
}}
_xv6 "$@"
"""


def fish():
    """Completions for fish."""
    commands, _ = read()
    lines = ["# Completions of xv6 for fish: put this file into ~/.config/fish/completions as xv6.fish."]
    lines += [f"complete -c xv6 -n __fish_use_subcommand -f -a {it.name} -d '{quoted(it.about)}'" for it in commands]
    for it in commands:
        for word, says, how in options(it):
            name = f"-s {how.value}" if how.given == "Letter" else f"-l {how.name}"
            takes = " -r" if how.given in ("Option", "Number", "Count", "Short") else ""
            lines.append(f"complete -c xv6 -n '__fish_seen_subcommand_from {it.name}' {name}{takes} -d '{quoted(says)}'")
    return "\n".join(lines) + "\n"
