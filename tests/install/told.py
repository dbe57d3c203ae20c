"""Tests of what man pages and completions tell, compared with the sources: a verb, an option, a command, a cause or a line that
one of them lacks fails here."""
import os
import re
import shutil
import subprocess

from places import COMPLETED, PATH, PROGRAMS, TOP, check_commands, commands, copy_and_prefix, folder, read, run, skipped, verbs, wanted

from build.words import CHECK_USAGE  # noqa: E402  (places.py has put the repository's folder on the path)

COMPLETIONS = os.path.join(TOP, 'completions')


# ---- completions

def in_bash(name, *typed):
    """What bash offers for the last of these words."""
    script = 'source "$1"; shift; COMP_WORDS=("$@"); COMP_CWORD=$(($# - 1)); _%s; printf "%%s\\n" "${COMPREPLY[@]}"' % name
    status, out, err = run('bash', '-c', script, 'bash', os.path.join(COMPLETIONS, 'bash', name), name, *typed)
    return set(out.split()) if not (status or err) else {status, err}


def loaded_by_bash():
    for name in COMPLETED:
        path = os.path.join(COMPLETIONS, 'bash', name)
        status, out, err = run('bash', '-c', 'source "$1"; complete -p "$2"', 'bash', path, name)
        yield from wanted((status, err, out.startswith('complete ') and out.endswith(' -F _%s %s\n' % (name, name))), (0, '', True))


def offered_by_bash():
    """Each verb, and each option of each verb, and no other."""
    by_verb, without = verbs()
    yield from wanted(in_bash('mig', ''), {*by_verb, 'help', *without})
    yield from wanted(in_bash('mig', 'help', ''), set(by_verb))
    yield from wanted(in_bash('mig', 'comp'), {'compare'})
    for verb, options in by_verb.items():
        yield from wanted((verb, in_bash('mig', verb, '-')), (verb, options))
        yield from wanted((verb, in_bash('mig', verb, 'x')), (verb, set()))
    yield from wanted(in_bash('mig', 'check', '-j', '-'), set())
    yield from wanted(in_bash('mig_tool', ''), set(commands()))
    yield from wanted(in_bash('mig_tool', 'verify', ''), set())
    yield from wanted(in_bash('mig_check', ''), check_commands())
    yield from wanted(in_bash('mig_check', 'legacy', ''), set())


def written_for_fish():
    """The same, told by the text of the files."""
    by_verb, without = verbs()
    text = read(COMPLETIONS, 'fish', 'mig.fish')
    yield from wanted(set(re.search(r'^set -l verbs (.*)$', text, re.M)[1].split()), set(by_verb))
    yield from wanted(set(re.findall(r'-n "\$none" -f -a (\w+)', text)), {*by_verb, 'help'})
    yield from wanted({'--' + name for name in re.findall(r'^complete -c mig (?:-n "\$none" -f )?-l (\w+)', text, re.M)}, without)
    found = {verb: {'--help'} for verb in by_verb}
    for names, rest in re.findall(r"-n '__fish_seen_subcommand_from ([\w ]+)'(.*)", text):
        for verb in names.split():
            found[verb].update('--' + name for name in re.findall(r' -l ([\w-]+)', rest))
            found[verb].update('-' + name for name in re.findall(r' -s (\w)', rest))
    yield from wanted(found, by_verb)
    for name, of_program in ('mig_tool', set(commands())), ('mig_check', check_commands()):
        yield from wanted(set(re.findall(r' -a (\w+)', read(COMPLETIONS, 'fish', name + '.fish'))), of_program)


def written_for_zsh():
    by_verb, without = verbs()
    text = read(COMPLETIONS, 'zsh', '_mig')
    yield from wanted(text.splitlines()[0], '#compdef mig')
    yield from wanted(set(re.findall(r"^    '(\w+):", text, re.M)), {*by_verb, 'help'})
    option = r"'(?:\(- \*\))?\*?(--?[\w-]+)\["
    yield from wanted(set(re.findall(option, re.search('^_arguments .*$', text, re.M)[0])), without)
    found = re.findall(r'^ {12}(\w+)\)\n {16}_arguments (.*?) ;;$', text, re.M | re.S)
    yield from wanted({verb: set(re.findall(option, words)) for verb, words in found}, by_verb)
    for name, of_program in ('mig_tool', set(commands())), ('mig_check', check_commands()):
        text = read(COMPLETIONS, 'zsh', '_' + name)
        yield from wanted(text.splitlines()[0], '#compdef ' + name)
        yield from wanted(set(re.findall(r"^    '(\w+):", text, re.M)), of_program)


def read_by_zsh_and_fish():
    """Where they are installed they read the files without a fault, and fish offers what bash does."""
    for shell, ending in ('zsh', '_%s'), ('fish', '%s.fish'):
        if not shutil.which(shell, path=PATH):
            skipped('completions for ' + shell, "%s isn't installed" % shell)
            continue
        for name in COMPLETED:
            yield from wanted(run(shell, '-n', os.path.join(COMPLETIONS, shell, ending % name)), (0, '', ''))
    if not shutil.which('fish', path=PATH):
        return
    with folder() as home:
        def offered(name, line):
            environment = {'PATH': PATH, 'HOME': home}
            _, out, err = run('fish', '--no-config', '-c', 'source $argv[1]; complete -C $argv[2]',
                              os.path.join(COMPLETIONS, 'fish', name + '.fish'), line, environment=environment, cwd=home)
            return {err} if err else {line.split('\t')[0] for line in out.splitlines()}
        by_verb, _ = verbs()
        yield from wanted(offered('mig', 'mig '), {*by_verb, 'help'})
        yield from wanted(offered('mig', 'mig help '), set(by_verb))
        for verb, options in by_verb.items():
            yield from wanted((verb, offered('mig', 'mig %s -' % verb) - {'-h'}), (verb, options))
        yield from wanted(offered('mig_tool', 'mig_tool '), set(commands()))
        yield from wanted(offered('mig_check', 'mig_check '), check_commands())


# ---- man pages

def page(name):
    return read(TOP, 'docs', name + '.1')


def section(text, name):
    """A section of a page, from its heading up to the next one."""
    return text.partition('\n.SH %s\n' % name)[2].partition('\n.SH ')[0]


def unescaped(text):
    for letters, meant in ('\\-', '-'), ('\\(aq', "'"), ('\\(ha', '^'), ('\\fR', ''), ('\\fI', ''), ('\\fB', ''), ('\\e', '\\'):
        text = text.replace(letters, meant)
    return text


def plain(text):
    """The words of a page, without its macros."""
    lines = []
    for line in text.splitlines():
        macro, _, rest = line.partition(' ') if line.startswith('.') else ('', '', line)
        words = [quoted or bare for quoted, bare in re.findall(r'"([^"]*)"|(\S+)', rest)]
        lines.append(('' if len(macro) == 3 and macro[1:] not in ('SH', 'SS', 'TP', 'PP') else ' ').join(words) if macro else rest)
    return re.sub(r'\s+', ' ', unescaped(' '.join(lines)))


def verbs_and_options():
    """Each verb has its words and says what it does in mig(1), and each option stands in its words."""
    text, (by_verb, without) = page('mig'), verbs()
    begun = re.split(r'^\.B mig ', section(text, 'SYNOPSIS'), flags=re.M)[1:]
    synopsis = {unescaped(words.split()[0]): unescaped(words) for words in begun}
    yield from wanted(synopsis.keys() - {'help', '--version'}, by_verb.keys())
    for verb, options in by_verb.items():
        yield from wanted((verb, set(re.findall(r'(?<![\w-])--?[a-z0][a-z-]*', synopsis[verb]))), (verb, options - {'--help'}))
        if '\n.B mig %s\n' % verb not in section(text, 'COMMANDS'):
            yield 'mig(1) does not say what %s does' % verb
    yield from ('mig(1) has no ' + option for option in without if option not in unescaped(text))


def commands_and_lines():
    """Each command has its words in mig_tool(1) and says what it does; each form of a line and each status is there, the faults as one."""
    text = page('mig_tool')
    synopsis, told = plain(section(text, 'SYNOPSIS')), section(text, 'COMMANDS')
    for name, words in commands().items():
        if 'mig_tool %s ' % words not in synopsis + ' ':
            yield 'no words of ' + name
        if '\n.B mig_tool %s\n' % name not in '\n' + told:
            yield 'nothing of ' + name
    yield from wanted(len(re.findall('mig_tool ', synopsis)), len(commands()))
    lines, rows = plain(section(text, 'LINES')), read(TOP, 'docs', 'refusals.md').partition('\n## ')[0]
    forms = [form for row in re.findall(r'^\| \d \| (.*)', rows, re.M) for form in re.findall('`((?:ok|fault|refused|usage)[ :][^`]*)`', row)]
    yield from wanted(len(forms), 10)
    for form in forms:
        if re.sub('^fault: .*', 'fault: WHAT', form.partition(': restore')[0]) not in lines:
            yield 'no line ' + form
    if 'differs D' not in lines:
        yield 'no line with differs'
    for name, least in ('mig_tool', 6), ('mig_check', 6), ('xl-stream', 5), ('mig', 9):
        statuses = re.findall(r'^\.B (\d+)$', section(page(name), 'EXIT STATUS'), re.M)
        yield from wanted((name, len(statuses)), (name, least))


def check_lines():
    """Each command of mig_check has its words in mig_check(1), which says what it does, and each form of its lines is there."""
    text = page('mig_check')
    synopsis, told, lines = plain(section(text, 'SYNOPSIS')), section(text, 'COMMANDS'), plain(section(text, 'LINES'))
    for words in 'mig_check', *('mig_check ' + name for name in check_commands()):
        if words + ' <' not in synopsis or '\n.B %s\n' % words not in '\n' + told:
            yield 'nothing of ' + words
    for form in ('ok version V kind K frames N records R', 'differs unknown', 'ok legacy frames N', 'refused: PLACE: NUMBER NAME ..',
                 CHECK_USAGE, 'fault: WHAT'):
        if form not in lines:
            yield 'no line ' + form


def places():
    """Each list of causes in mig_tool(1) has its places in front."""
    for subsection in section(page('mig_tool'), 'REFUSALS').split('\n.SS ')[1:]:
        if not re.match(r'.*\nPlaces?:', subsection):
            yield '%s: no places' % subsection.partition('\n')[0]


def without_a_warning():
    """man and mandoc, where they are installed, take the pages; no line but one of an example has an apostrophe in front."""
    for name in PROGRAMS:
        path = os.path.join(TOP, 'docs', name + '.1')
        if shutil.which('man', path=PATH):
            environment = {'PATH': PATH, 'LC_ALL': 'C.UTF-8', 'MANROFFSEQ': ''}
            status, out, err = run('man', '--warnings', '-E', 'UTF-8', '-l', '-Tutf8', '-Z', path, environment=environment)
            yield from wanted((name, status, bool(out), err), (name, 0, True, ''))
        if shutil.which('mandoc', path=PATH):
            yield from wanted((name, *run('mandoc', '-Tlint', '-Wwarning', path)), (name, 0, '', ''))
    for program in 'man', 'mandoc':
        if not shutil.which(program, path=PATH):
            skipped('man pages by ' + program, "%s isn't installed" % program)


def examples_of(text):
    """The commands of a page's examples that show what they write, each with that."""
    found = []
    for block in re.findall(r'^\.nf\n(.*?)^\.fi$', section(text, 'EXAMPLES') + '\n', re.M | re.S):
        for line in unescaped(block).splitlines() if block.startswith('$ ') else ():
            if line.startswith('$ '):
                found.append([line[2:], ''])
            elif line.startswith('> ') and not found[-1][1]:
                found[-1][0] += '\n' + line[2:]
            else:
                found[-1][1] += line + '\n'
    return found


def examples():
    """The examples of the pages write what is shown, with what was installed, in the folder of the installed examples."""
    with copy_and_prefix() as (copy, prefix):
        copy.install('--prefix', prefix)
        environment = {'PATH': os.path.join(prefix, 'bin') + os.pathsep + PATH, 'LC_ALL': 'C'}
        for name in PROGRAMS:
            found = examples_of(page(name))
            if not found:
                yield 'no examples of ' + name
            for command, shown in found:
                _, out, _ = run('sh', '-c', command, environment=environment, stderr=subprocess.STDOUT,
                                     cwd=os.path.join(prefix, 'share', 'doc', 'mig', 'examples'))
                yield from wanted((command, out), (command, shown))


TESTS = (
    loaded_by_bash, offered_by_bash, written_for_fish, written_for_zsh, read_by_zsh_and_fish,
    verbs_and_options, commands_and_lines, check_lines, places, without_a_warning, examples,
)
