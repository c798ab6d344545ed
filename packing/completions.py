"""What completes the program's words in bash, zsh and fish."""
from packing.usage import FILE


def words_of(command):
    """Returns the words that may be typed for a command's options, and its commands."""
    return [*command.commands, *(word for option in command.options for word in option.words())]


def with_value(commands, is_file):
    """Returns the options whose value is the name of a file, or those with another value."""
    options = {
        f"--{it.long}"
        for command in commands
        for it in command.options
        if it.value and (it.value == FILE) == is_file
    }
    return "|".join(sorted(options))


def bash_case(command):
    """Returns what bash may complete after a command: its words, and files where it has a file's name."""
    files = " files=yes" if command.files() else ""
    return f"    {command.name}) words='{' '.join(words_of(command))}'{files} ;;\n"


def bash(whole, commands):
    """Returns the completion for bash."""
    return f"""\
# Completes the words of chipfire in bash.
_chipfire() {{
    local word=${{COMP_WORDS[COMP_CWORD]}} before=${{COMP_WORDS[COMP_CWORD - 1]}} words='' files=''
    COMPREPLY=()
    # (bash takes the equals sign of --feed=FILE for a word)
    if [[ $word == = ]]; then
        word=''
    elif [[ $before == = ]]; then
        before=${{COMP_WORDS[COMP_CWORD - 2]}}
    fi
    case ${{COMP_WORDS[1]}} in
{"".join(map(bash_case, commands))}    esac
    case $before in
    {with_value(commands, False)}) return ;;
    {with_value(commands, True)}) words='' files=yes ;;
    esac
    if ((COMP_CWORD == 1)); then
        words='{" ".join(words_of(whole))}' files=''
    fi
    mapfile -t COMPREPLY < <(
        compgen -W "$words" -- "$word"
        [[ -z $files || $word == -* ]] || compgen -f -- "$word"
    )
}}
complete -o filenames -F _chipfire chipfire
"""


def zsh_text(text):
    """Returns a text as zsh takes it between quotes, brackets and colons."""
    return text.replace("'", "'\\''").replace("[", "\\[").replace("]", "\\]").replace(":", "\\:")


def zsh_value(option):
    """Returns the words for _arguments about the value of an option."""
    return f":{option.value}:{'_files' if option.value == FILE else ' '}"


def zsh_options(options):
    """Returns the words for _arguments about options."""
    found = []
    for option in options:
        sign, value = ("=", zsh_value(option)) if option.value else ("", "")
        found += [f"'{word}{sign}[{zsh_text(option.text)}]{value}'" for word in option.words()]
    return found


def zsh_operands(command):
    """Returns the words for _arguments about operands."""
    files = command.files()
    return [
        f"'{place}:{zsh_text(text)}:{'_files' if name in files else ' '}'"
        for place, (name, text) in enumerate(command.operands, 1)
    ]


def zsh_case(command):
    """Returns what zsh may complete after a command."""
    words = " \\\n        ".join([*zsh_options(command.options), *zsh_operands(command)])
    return f"{command.name})\n    _arguments {words}\n    ;;\n"


def zsh(whole, commands):
    """Returns the completion for zsh."""
    names = "".join(f"    '{it.name}:{zsh_text(it.summary)}'\n" for it in commands)
    return f"""\
#compdef chipfire
# Completes the words of chipfire in zsh.
local -a commands
commands=(
{names})
if ((CURRENT == 2)); then
    _describe -t commands command commands
    _arguments {" ".join(zsh_options(whole.options))}
    return
fi
local command=$words[2]
shift words
((CURRENT--))
case $command in
{"".join(map(zsh_case, commands))}esac
"""


def fish_text(text):
    """Returns a text as fish takes it, in quotes."""
    text = text.replace("\\", "\\\\").replace("'", "\\'")
    return f"'{text}'"


def fish_option(condition, option):
    """Returns the line of an option."""
    words = [f"complete -c chipfire -n {condition} -l {option.long}"]
    if option.short:
        words.append(f"-s {option.short}")
    if option.value:
        words.append("-r -F" if option.value == FILE else "-x")
    return " ".join([*words, f"-d {fish_text(option.text)}"])


def fish_command(first, command):
    """Returns the lines of a command: itself, and what may follow it."""
    after = f"'__fish_seen_subcommand_from {command.name}'"
    lines = [f"complete -c chipfire -n {first} -a {command.name} -d {fish_text(command.summary)}"]
    if command.files():
        lines.append(f"complete -c chipfire -n {after} -F")
    return [*lines, *(fish_option(after, it) for it in command.options)]


def fish(whole, commands):
    """Returns the completion for fish."""
    first = "__fish_use_subcommand"
    lines = ["# Completes the words of chipfire in fish.", "complete -c chipfire -f"]
    lines += [fish_option(first, it) for it in whole.options]
    for command in commands:
        lines += fish_command(first, command)
    return "\n".join(lines) + "\n"
