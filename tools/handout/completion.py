"""Completions for bash and zsh, made of a program's help."""

from handout.helps import Help, Option

ALONE = ["--help", "--version"]
BASH = """\
# Completion of PROGRAM for bash, made by tools/dist of `PROGRAM --help`.
_PROGRAM() {
    local word=$2 before=$3 option options=()
    # the sign between --input and its value is a word by itself
    [ "$before" != = ] || before=${COMP_WORDS[COMP_CWORD - 2]}
    [ "$word" != = ] || word=''
    COMPREPLY=()
    case $before in
    FILES) mapfile -t COMPREPLY < <(compgen -f -- "$word") && return ;;
    CHOICES
    VALUES) return ;;
    esac
    case $word in
    -*)
        for option in OPTIONS; do
            [[ " ${COMP_WORDS[*]:1:COMP_CWORD-1} " == *" $option "* ]] || options+=("$option")
        done
        mapfile -t COMPREPLY < <(compgen -W "${options[*]}" -- "$word")
        ;;
    *) mapfile -t COMPREPLY < <(compgen -f -- "$word") ;;
    esac
}
complete -o filenames -F _PROGRAM PROGRAM
"""


def bash(words: Help) -> str:
    """The completion for bash. An option that is given already isn't offered again."""
    options = words.options
    files = [name for it in options if it.takes_file for name in it.names]
    chosen = [it for it in options if it.choices]
    others = [it for it in options if it.value and not it.takes_file and it not in chosen]
    values = [name for it in others for name in it.names]
    parts = {
        "FILES": " | ".join(files) or "''",
        "    CHOICES\n": "".join(map(bash_choices, chosen)),
        "VALUES": " | ".join(values) or "''",
        "OPTIONS": " ".join(name for option in options for name in option.names),
        "PROGRAM": words.program,
    }
    text = BASH
    for place, part in parts.items():
        text = text.replace(place, part)
    return text


def bash_choices(option: Option) -> str:
    """The case of an option whose values are listed."""
    words = f'compgen -W "{" ".join(option.choices)}" -- "$word"'
    return f'    {" | ".join(option.names)}) mapfile -t COMPREPLY < <({words}) && return ;;\n'


def quoted(text: str) -> str:
    """A text between quotes, for the shell."""
    return "'" + text.replace("'", "'\\''") + "'"


def inside(text: str, signs: str = "\\:") -> str:
    """A text inside of a form of zsh's _arguments, where these signs mean something."""
    for sign in signs:
        text = text.replace(sign, "\\" + sign)
    return text


def zsh_option(option: Option) -> str:
    """The form of an option. One that prints something of the program alone goes with no other word."""
    text = "[" + inside(option.text, "\\:[]") + "]"
    if option.value:
        action = "_files" if option.takes_file else f"({' '.join(option.choices)})" if option.choices else " "
        text += f":{inside(option.text)}:{action}"
    is_alone = option.name in ALONE
    others = "(- *)" if is_alone else f"({' '.join(option.names)})" if option.short else ""
    signs = {name: "=" if option.value and name.startswith("--") else "" for name in option.names}
    return " ".join(quoted(f"{others}{name}{sign}{text}") for name, sign in signs.items())


def zsh(words: Help) -> str:
    """The completion for zsh."""
    forms = [zsh_option(option) for option in words.options]
    for argument in words.arguments:
        colons = "*:" if argument.is_many else ":" if argument.is_needed else "::"
        forms.append(quoted(f"{colons}{inside(argument.text)}:_files"))
    program = words.program
    lines = [
        f"#compdef {program}",
        f"# Completion of {program} for zsh, made by tools/dist of `{program} --help`.",
        "_arguments -S \\",
        " \\\n".join("    " + form for form in forms),
    ]
    return "\n".join(lines) + "\n"
