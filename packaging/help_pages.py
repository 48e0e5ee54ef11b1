"""What `station --help` and `station COMMAND --help` print, as data; and the man pages and completions that are made of it. So they have
the same source as the help: the program's own table of commands."""
import collections
import re
import subprocess

# An option or a file of a command: how it is written, what its value is called, and what it is.
Argument = collections.namedtuple("Argument", "written value text")
# A command, or the program itself: its word, what it is in one line and at length, how it is called, its files and its options.
Help = collections.namedtuple("Help", "word about details usage files options")

HEADINGS = ("Usage:", "Commands:", "Arguments:", "Options:")


def printed(program, *words):
    return subprocess.run([program, *words], check=True, capture_output=True, text=True).stdout


def parts_of(text):
    """The text before the first heading, and the lines after each heading."""
    parts, heading = collections.defaultdict(list), None
    for line in text.splitlines():
        found = next((it for it in HEADINGS if line.startswith(it)), None)
        if found:
            heading, line = found, line.removeprefix(found).strip()
        parts[heading].append(line)
    return parts


def entries(lines):
    """The entries of a list: each begins with how it is written, and its text follows further in."""
    found = []
    for line in (it.rstrip() for it in lines):
        words = line.strip()
        if re.match(r" {1,7}\S", line):
            head, _, text = re.sub(r"^-\w, ", "", words).partition("  ")
            found.append([head.strip(), [text.strip()] if text.strip() else []])
        elif words and found:
            found[-1][1].append(words)
    return [(head, " ".join(text)) for head, text in found]


def arguments(lines):
    for head, text in entries(lines):
        found = re.fullmatch(r"(?:(--[\w-]+) ?)?(?:[<\[](.+?)[>\]])?", head)
        yield Argument(found[1] or found[2], found[2] if found[1] else None, text)


def help_of(program, word, about):
    parts = parts_of(printed(program, *([word] if word else []), "--help"))
    details = "\n".join(parts[None]).strip()
    usage = " ".join(it.strip() for it in parts["Usage:"] if it.strip())
    options = [it for it in arguments(parts["Options:"]) if it.written not in ("--help", "--version")]
    return Help(word, about, details, usage, list(arguments(parts["Arguments:"])), options)


def commands_of(program):
    """The commands in the order in which the help has them, each with its line."""
    found = entries(parts_of(printed(program, "--help"))["Commands:"])
    return [help_of(program, word, about) for word, about in found if word != "help"]


# ---- man pages


def roff(text):
    """Text as a line of roff."""
    text = text.replace("\\", "\\e").replace("-", "\\-")
    return "\\&" + text if text.startswith((".", "'")) else text


def body(details):
    """Paragraphs; what is set in by two and more, and examples, are printed as they stand."""
    out = []
    for part in re.split(r"\n\n+", details):
        if part.startswith(("  ", "Example")):
            out += [".PP", ".RS 2", ".nf", *map(roff, part.split("\n")), ".fi", ".RE"]
        else:
            out += [".PP", *map(roff, part.split("\n"))]
    return out


def man_page(name, about, help, version, date, more=()):
    head = [f'.TH {name.upper()} 1 "{date}" "zendurai {version}" "User Commands"', ".SH NAME", f"{roff(name)} \\- {about}"]
    lines = [*head, ".SH SYNOPSIS", ".nf", roff(help.usage), ".fi", ".SH DESCRIPTION", *body(help.details)]
    for title, found in (("FILES AND NAMES", help.files), ("OPTIONS", help.options)):
        if found:
            lines.append(f".SH {title}")
        for it in found:
            value = f" \\fI{roff(it.value)}\\fR" if it.value else ""
            lines += [".TP", f"\\fB{roff(it.written)}\\fR{value}", roff(it.text)]
    return "\n".join([*lines, *more]) + "\n"


def man_pages(program, version, date):
    """The pages by the names of their files: one of the program, and one of each of its commands."""
    commands = commands_of(program)
    whole = help_of(program, "", "the interlocking of a railway station")
    listed = [".SH COMMANDS"]
    for it in commands:
        listed += [".TP", f"\\fBstation\\-{it.word}\\fR(1)", roff(it.about)]
    pages = {"station.1": man_page("station", whole.about, whole, version, date, listed)}
    see = [".SH SEE ALSO", "\\fBstation\\fR(1)"]
    for it in commands:
        about = it.about[0].lower() + it.about[1:]
        pages[f"station-{it.word}.1"] = man_page(f"station-{it.word}", about, it, version, date, see)
    return pages


# ---- completions


def bash_completion(program):
    commands = commands_of(program)
    cases = []
    for it in commands:
        options = " ".join(option.written for option in [*it.options, Argument("--help", None, "")])
        cases.append(f'        {it.word}) options="{options}" ;;')
    words = " ".join(it.word for it in commands)
    return f"""# Completion of `station` for bash: commands, options, and files.
_station() {{
    local word=${{COMP_WORDS[COMP_CWORD]}} options=""
    COMPREPLY=()
    if [ "$COMP_CWORD" -eq 1 ]; then
        COMPREPLY=($(compgen -W "{words} --help --version" -- "$word"))
        return
    fi
    case ${{COMP_WORDS[1]}} in
{chr(10).join(cases)}
    esac
    case $word in
        -*) COMPREPLY=($(compgen -W "$options" -- "$word")) ;;
        *) compopt -o filenames 2>/dev/null; COMPREPLY=($(compgen -f -- "$word")) ;;
    esac
}}
complete -F _station station
"""


def quoted(text):
    """Text inside a description of zsh."""
    return re.sub(r"([\[\]:\\])", r"\\\1", text).replace("'", "'\\''")


def zsh_completion(program):
    commands = commands_of(program)
    listed = "\n".join(f"        '{it.word}:{quoted(it.about)}'" for it in commands)
    cases = []
    for it in commands:
        options = [f"'{option.written}[{quoted(option.text)}]{f':{option.value}:_files' if option.value else ''}'" for option in it.options]
        spelled = " \\\n                ".join([*options, "'--help[Print help]'", "'*:file:_files'"])
        cases.append(f"        {it.word})\n            _arguments \\\n                {spelled} ;;")
    return f"""#compdef station
# Completion of `station` for zsh: commands, options with their help, and files.
_station() {{
    local -a commands
    commands=(
{listed}
    )
    if (( CURRENT == 2 )); then
        _describe command commands
        return
    fi
    local command=$words[2]
    shift words
    (( CURRENT-- ))
    case $command in
{chr(10).join(cases)}
    esac
}}
_station "$@"
"""
