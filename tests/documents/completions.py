"""Makes the files of completions/, for bash, zsh and fish: those of mig of the words that each verb offers (front/verb_NAME.py), those of
the programs of their commands (build/words.py). tests/documents/made.py puts them there."""
import argparse

from build.words import CHECK_USAGE, COMMANDS, NOTHING
from front import main, resolve

FILES, FOLDERS = {"FILE", "LIST", "PATH", "IN", "OUT", "A", "B", "IMAGE", "SCRIPT"}, {"DIR"}  # what a word in capitals stands for
HELP_OF_HELP, HELP = "tell more of a verb", "print how it is used"
MADE = "made by tests/documents/completions.py"
BY_INPUT = "What it works on comes by standard input, so no file names are offered"


# ---- words

def action_of(kind):
    """The word of this kind that stands in front of all verbs."""
    return next(action for action in main.parser(main.verbs())._actions if isinstance(action, kind))


def verbs():
    """What reads the words of each verb, by its name, and what is said of it."""
    offered = action_of(argparse._SubParsersAction)
    says = {choice.dest: choice.help for choice in offered._choices_actions}
    return {name: (words, says[name]) for name, words in offered.choices.items()}


def said(action):
    return (action.help or "").replace("%%", "%")


def options(words):
    """The options of a verb but its help, which all have."""
    return [action for action in words._actions if action.option_strings and not isinstance(action, argparse._HelpAction)]


def positionals(words):
    return [action for action in words._actions if not action.option_strings]


def takes_nothing_known(action):
    """Whether what follows an option, or is there without one, is no file's name."""
    return action.nargs != 0 and action.metavar not in FILES | FOLDERS


def commands(name):
    """Each command of a program, and what is said of it."""
    if name == resolve.CHECK:
        return {word.strip("[]"): "judge a legacy stream" for word in CHECK_USAGE.split()[2:]}
    return {command.words.split()[0]: "tell " + command.report if command.output == NOTHING else "write " + command.output
            for command in COMMANDS}


# ---- bash

BASH = """\
# Completion of mig for bash: verbs, the options of each, and else file names; {made}.

_mig() {{
    local word=${{COMP_WORDS[COMP_CWORD]}} verb=${{COMP_WORDS[1]}} offered=
    COMPREPLY=()
    case ${{COMP_WORDS[COMP_CWORD - 1]}} in
        {unknown}) compopt +o default 2>/dev/null; return ;;
        {folders}) compopt +o default -o dirnames 2>/dev/null; return ;;
    esac
    if [ "$COMP_CWORD" -eq 1 ] || [ "$verb" = help ]; then
        compopt +o default 2>/dev/null
        offered='{verbs}'
        [ "$COMP_CWORD" -eq 1 ] && offered="$offered help --help --version"
    else
        case $verb in
{cases}
        esac
        case $word in
            -*) offered="$offered --help" ;;
            *) return ;;
        esac
    fi
    COMPREPLY=($(compgen -W "$offered" -- "$word"))
}}

complete -o default -F _mig mig
"""
BASH_OF_PROGRAM = """\
# Completion of {name} for bash: its commands. {by_input}; {made}.

_{name}() {{
    COMPREPLY=()
    if [ "$COMP_CWORD" -eq 1 ]; then
        COMPREPLY=($(compgen -W '{commands}' -- "${{COMP_WORDS[1]}}"))
    fi
}}

complete -F _{name} {name}
"""


def bash_case(name, words):
    offered = " ".join(option for action in options(words) for option in action.option_strings)
    no_file = "compopt +o default 2>/dev/null; " * all(map(takes_nothing_known, positionals(words)))
    return "            %s) %soffered='%s' ;;" % (name, no_file, offered)


def names_of(fits):
    """The options that fit, of all verbs, each once, as a pattern of the shell."""
    return " | ".join(dict.fromkeys(name for words, _ in verbs().values() for action in options(words) if fits(action)
                                    for name in action.option_strings))


def bash():
    return BASH.format(made=MADE, verbs=" ".join(verbs()), unknown=names_of(takes_nothing_known),
                       folders=names_of(lambda action: action.metavar in FOLDERS),
                       cases="\n".join(bash_case(name, words) for name, (words, _) in verbs().items()))


def bash_of(name):
    return BASH_OF_PROGRAM.format(name=name, by_input=BY_INPUT, made=MADE, commands=" ".join(commands(name)))


# ---- zsh

ZSH = """\
#compdef mig
# Completion of mig for zsh: verbs, the options of each, and else file names; {made}.

local -a verbs
verbs=(
{verbs}
)

local curcontext=$curcontext state line

_arguments -C {help} {version} '1:verb:->verb' '*::word:->words'

case $state in
    verb) _describe verb verbs ;;
    words)
        case $words[1] in
{cases}
            help) _describe verb verbs ;;
        esac
        ;;
esac
"""
ZSH_OF_PROGRAM = """\
#compdef {name}
# Completion of {name} for zsh: its commands. {by_input}; {made}.

local -a commands
commands=(
{commands}
)

(( CURRENT == 2 )) && _describe command commands
"""


def quoted(text):
    """A text as one word of each of the shells."""
    return "'%s'" % text.replace("'", "'\\''")


def zsh_said(text):
    """A text in brackets, as _arguments takes it."""
    return "".join("\\" + letter if letter in "[]\\" else letter for letter in text)


def zsh_taken(action):
    """What is offered for a word."""
    what = action.metavar.lower()
    return "%s:%s" % (what, "_files" if action.metavar in FILES else "_files -/" if action.metavar in FOLDERS else " ")


def zsh_option(action):
    many = "*" * isinstance(action, argparse._AppendAction)
    taken = ":" + zsh_taken(action) if action.nargs != 0 else ""
    return [quoted("%s%s[%s]%s" % (many, name, zsh_said(said(action)), taken)) for name in action.option_strings]


def zsh_positional(action):
    return quoted({"*": "*:", "?": "::"}.get(action.nargs, ":") + zsh_taken(action))


def zsh_case(name, words):
    parts = [quoted("(- *)--help[%s]" % HELP), *(part for action in options(words) for part in zsh_option(action)),
             *map(zsh_positional, positionals(words))]
    return "            %s)\n                _arguments %s ;;" % (name, " \\\n                    ".join(parts))


def described(told):
    return "\n".join("    " + quoted("%s:%s" % (name, says)) for name, says in told.items())


def zsh():
    told = {name: says for name, (_, says) in verbs().items()}
    return ZSH.format(made=MADE, verbs=described({**told, "help": HELP_OF_HELP}), help=quoted("(- *)--help[%s]" % HELP),
                      version=quoted("(- *)--version[%s]" % said(action_of(main.Version))),
                      cases="\n".join(zsh_case(name, words) for name, (words, _) in verbs().items()))


def zsh_of(name):
    return ZSH_OF_PROGRAM.format(name=name, by_input=BY_INPUT, made=MADE, commands=described(commands(name)))


# ---- fish

FISH = """\
# Completion of mig for fish: verbs, the options of each, and else file names; {made}.

set -l verbs {verbs}
set -l none "not __fish_seen_subcommand_from $verbs help"

{offered}
complete -c mig -n "$none" -f -l version -d {version}
complete -c mig -l help -s h -d {help}
complete -c mig -n "__fish_seen_subcommand_from help; and not __fish_seen_subcommand_from $verbs" -f -a "$verbs"

{options}
"""
FISH_OF_PROGRAM = """\
# Completion of {name} for fish: its commands. {by_input}; {made}.

complete -c {name} -f
{commands}
"""


def fish_quoted(text):
    return "'%s'" % text.replace("\\", "\\\\").replace("'", "\\'")


def fish_option(action):
    """The words that offer an option, without the verbs that have it."""
    names = " ".join("-l " + name[2:] if name.startswith("--") else "-s " + name[1:] for name in action.option_strings)
    taken = " -r" if action.metavar in FILES else " -x -a '(__fish_complete_directories)'" if action.metavar in FOLDERS else " -x"
    return "%s%s -d %s" % (names, taken * (action.nargs != 0), fish_quoted(said(action)))


def fish_options():
    """Each option once for all verbs that have it with the same words."""
    of_verbs = {}
    for name, (words, _) in verbs().items():
        for action in options(words):
            of_verbs.setdefault(fish_option(action), []).append(name)
        if all(map(takes_nothing_known, positionals(words))):
            of_verbs.setdefault("-f", []).append(name)
    return "\n".join("complete -c mig -n '__fish_seen_subcommand_from %s' %s" % (" ".join(names), option)
                     for option, names in of_verbs.items())


def fish():
    told = {**{name: says for name, (_, says) in verbs().items()}, "help": HELP_OF_HELP}
    offered = "\n".join('complete -c mig -n "$none" -f -a %s -d %s' % (name, fish_quoted(says)) for name, says in told.items())
    return FISH.format(made=MADE, verbs=" ".join(verbs()), offered=offered, version=fish_quoted(said(action_of(main.Version))),
                       help=fish_quoted(HELP), options=fish_options())


def fish_of(name):
    lines = ("complete -c %s -n __fish_use_subcommand -a %s -d %s" % (name, command, fish_quoted(says))
             for command, says in commands(name).items())
    return FISH_OF_PROGRAM.format(name=name, by_input=BY_INPUT, made=MADE, commands="\n".join(lines))


def files():
    """The text of each file by its path."""
    found = {"completions/bash/mig": bash(), "completions/zsh/_mig": zsh(), "completions/fish/mig.fish": fish()}
    for name in resolve.NAMES:
        found.update({"completions/bash/" + name: bash_of(name), "completions/zsh/_" + name: zsh_of(name),
                      "completions/fish/%s.fish" % name: fish_of(name)})
    return found
