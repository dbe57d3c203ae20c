"""Reads the sources of the crates, as far as tests/surface/run asks: which items they declare, and where a path leads.

A `.rt` file is Rust, with clauses between the signature of a function and its body:

    pub fn NAME(PARAMETERS) -> TYPE
        requires NAME { PREMISE }
        ensures NAME { PROMISE }
    { BODY }

Bodies aren't read. What can't be read as an item ends the script, so that no item is passed over.
"""
import collections
import os
import re

TOP = os.path.dirname(os.path.dirname(os.path.dirname(os.path.abspath(__file__))))
CRATES = os.path.join(TOP, 'crates')


# ---- text

# Comments, strings and characters: brackets in them don't count.
NO_CODE = re.compile(r"""//[^\n]*|/\*.*?\*/|r(?P<hashes>\#*)".*?"(?P=hashes)|"(?:\\.|[^"\\])*"|'(?:\\[^']+|[^\\'\n])'""", re.S)
BRACKET = re.compile(r'[()\[\]{}]')
# What decides where a list of types is divided. The sign `->` is there so that it isn't taken for a closing bracket.
DIVIDING = re.compile(r'->|[()\[\]{}<>,]')


def code_of(text):
    """The text with blanks for everything that is no code. All other signs keep their places."""
    return NO_CODE.sub(lambda found: re.sub(r'[^\n]', ' ', found[0]), text)


def end_of_bracket(text, at):
    """The place after the bracket that closes the one at this place."""
    depth = 0
    for found in BRACKET.finditer(text, at):
        depth += 1 if found[0] in '([{' else -1
        if not depth:
            return found.end()
    raise ValueError('a bracket is never closed')


def next_outside_brackets(text, at, pattern):
    """The place of the next match that is inside no bracket, or the end of the text. An opening bracket may match."""
    either = re.compile('(?P<wanted>%s)|[(\\[{]' % pattern)
    found = either.search(text, at)
    while found and found['wanted'] is None:
        found = either.search(text, end_of_bracket(text, found.start()))
    return found.start() if found else len(text)


def split_at_commas(text):
    """The members of a list. A comma inside brackets doesn't end a member."""
    depth, begin = 0, 0
    for found in DIVIDING.finditer(text):
        if found[0] in '([{<':
            depth += 1
        elif found[0] in ')]}>':
            depth -= 1
        elif found[0] == ',' and not depth:
            yield text[begin:found.start()].strip()
            begin = found.end()
    if text[begin:].strip():
        yield text[begin:].strip()


def split_after_angles(text):
    """What is inside the angle brackets at the front of a text, '' where there are none, and the rest of the text."""
    depth = 0
    for found in DIVIDING.finditer(text) if text.startswith('<') else ():
        depth += {'<': 1, '>': -1}.get(found[0], 0)
        if not depth:
            return text[1:found.start()], text[found.end():].strip()
    return '', text


# ---- items

ATTRIBUTE = re.compile(r'\s*#!?(?=\[)')
HEAD = re.compile(r'\s*(?P<public>pub(?:\s*\([^)]*\))?\s+)?(?P<form>(?:(?:const|unsafe|async)\s+)*(?=(?:fn|trait|impl)\b)|)'
                  r'(?P<kind>\w+)\b!?\s*(?P<name>\w*)')
CLAUSE = re.compile(r'\s*(requires|ensures)\*?\s*(?:\w+\s*)?(?=\{)')
# These items end with a semicolon, although they may have braces.
ENDS_WITH_SEMICOLON = 'const', 'static', 'type', 'use', 'ghost'

# kind: `fn`, `struct`, `impl` and so on. form: the words before it, as `unsafe`. head: the text from the kind up to the
# clauses, the block or the semicolon. requires: the premises. block: where the text in the braces begins and ends, None where
# there are no braces. at: where the head begins.
Item = collections.namedtuple('Item', 'kind name public form head attributes requires block at module')


def line_at(module, at):
    """The line of a place in a module, as FILE:LINE."""
    return '%s:%d' % (os.path.relpath(module.file, TOP), module.text.count('\n', 0, at) + 1)


def place_of(item):
    """The line of an item, as FILE:LINE."""
    return line_at(item.module, item.at)


def attributes_at(text, at):
    """The attributes that begin at a place, and the place after them."""
    begin = at
    while ATTRIBUTE.match(text, at):
        at = end_of_bracket(text, ATTRIBUTE.match(text, at).end())
    return text[begin:at], at


def clauses_at(text, at):
    """The premises among the clauses that begin at a place, and the place after the clauses."""
    premises = []
    found = CLAUSE.match(text, at)
    while found:
        at = end_of_bracket(text, found.end())
        if found[1] == 'requires':
            premises.append(' '.join(text[found.end() + 1:at - 1].split()))
        found = CLAUSE.match(text, at)
    return premises, at


def end_of_head(text, found):
    """Where the clauses, the block or the semicolon of an item begins."""
    if found['kind'] in ENDS_WITH_SEMICOLON:
        return next_outside_brackets(text, found.end(), ';')
    return next_outside_brackets(text, found.end(), r'[;{]|\b(?:requires|ensures)\b')


def item_at(module, found, attributes):
    """The item whose head was found in the text of a module, and the place after it."""
    text, stop = module.text, end_of_head(module.text, found)
    premises, at = clauses_at(text, stop)
    at, block = next_outside_brackets(text, at, '[;{]'), None
    if text[at:at + 1] == '{':
        block = at + 1, end_of_bracket(text, at) - 1
        at = block[1]
    public, head = (found['public'] or '').strip() == 'pub', text[found.start('kind'):stop].strip()
    return Item(found['kind'], found['name'], public, found['form'], head, attributes, premises, block,
                found.start('kind'), module), at + 1


def items_in(module, begin, end):
    """The items of a part of a module. Those of tests are left out."""
    at = begin
    while module.text[at:end].strip():
        attributes, at = attributes_at(module.text, at)
        found = HEAD.match(module.text, at, end)
        if not found:
            raise SystemExit('%s: no item begins here' % line_at(module, at + re.match(r'\s*', module.text[at:]).end()))
        item, at = item_at(module, found, attributes)
        if not re.search(r'cfg\s*\(\s*test\b', attributes):
            yield item


def members_of(item):
    """The items in the block of a trait or an `impl`."""
    return items_in(item.module, *item.block) if item.block else ()


def listed_in(item):
    """The fields or variants of an item, without their attributes."""
    for member in split_at_commas(item.module.text[item.block[0]:item.block[1]]):
        _, at = attributes_at(member, 0)
        yield member[at:].strip()


# ---- modules

class Module:
    """A module: a file of a crate, or a block in a file."""

    def __init__(self, crate, file, folder, above=None, text=None):
        self.crate, self.file, self.folder, self.above = crate, file, folder, above
        self.is_program = above is None and file.endswith('main.rt')
        self.uses, self.items, self.modules = [], [], {}
        if text is None:
            with open(file, encoding='utf-8') as source:
                text = code_of(source.read())
        self.text = text

    def take(self, begin, end):
        """Takes in the items between two places of the text."""
        for item in items_in(self, begin, end):
            if item.kind == 'use':
                self.uses += [(item.public, path, name) for path, name in imports(item.head[len('use'):])]
            elif item.kind == 'mod':
                self.modules[item.name] = item.public, self.inner(item)
            else:
                self.items.append(item)
        return self

    def inner(self, item):
        """The module that a `mod` in this one declares."""
        folder = os.path.join(self.folder, item.name)
        if item.block:
            return Module(self.crate, self.file, folder, self, self.text).take(*item.block)
        for file in folder + '.rt', os.path.join(folder, 'mod.rt'):
            if os.path.exists(file):
                module = Module(self.crate, file, folder, self)
                return module.take(0, len(module.text))
        raise SystemExit('%s: the module %s has no file' % (place_of(item), item.name))

    def all(self):
        """This module and all modules in it."""
        yield self
        for _, module in self.modules.values():
            yield from module.all()


def imports(tree, before=()):
    """The paths of a `use`, each with the name under which it is imported."""
    front, brace, inside = tree.partition('{')
    if brace:
        before += tuple(front.replace(' ', '').split('::')[:-1])
        for member in split_at_commas(inside.rpartition('}')[0]):
            yield from imports(member, before)
        return
    path, _, name = ' '.join(tree.split()).partition(' as ')
    path = before + tuple(path.replace(' ', '').split('::'))
    path = path[:-1] if path[-1] == 'self' and len(path) > 1 else path
    yield path, name or path[-1]


ROOTS = {}


def root_of(crate):
    """The root of a crate, None where there is no such crate."""
    if crate not in ROOTS:
        folder = os.path.join(CRATES, crate, 'src')
        files = [os.path.join(folder, name) for name in ('lib.rt', 'main.rt')]
        file = next(filter(os.path.exists, files), None)
        ROOTS[crate] = file and Module(crate, file, folder)
        if file:
            ROOTS[crate].take(0, len(ROOTS[crate].text))
    return ROOTS[crate]


def modules_everywhere():
    """All modules of all crates."""
    for crate in sorted(os.listdir(CRATES)):
        if root_of(crate):
            yield from root_of(crate).all()


# ---- names

def may_be_named(module, public, reader):
    """Rule program, and otherwise Rust's own: whether a crate may name something in a module. None is any other crate."""
    return public or reader == module.crate or module.is_program


def found_under(module, name, reader, seen=frozenset()):
    """The modules and items to which a name in a module leads, as far as the reader may name them. `seen` has the imports
    that were followed before, since two of them may lead to each other."""
    if name in module.modules and may_be_named(module, module.modules[name][0], reader):
        yield module.modules[name][1]
    for item in module.items:
        if item.name == name and item.kind not in ('impl', 'ghost') and may_be_named(module, item.public, reader):
            yield item
    for use in module.uses:
        public, path, given = use
        if given in (name, '*') and (module, use) not in seen and may_be_named(module, public, reader):
            further = path if given == name else path[:-1] + (name,)
            yield from followed(module, further, seen | {(module, use)})


def first_step(module, name, seen):
    """Where a path in a module may begin: with a name of the module, or else with a crate."""
    if name in ('crate', 'self', 'super'):
        return [{'crate': root_of(module.crate), 'self': module, 'super': module.above}[name]]
    here = list(found_under(module, name, module.crate, seen))
    return here or [root for root in [root_of(name)] if root]


def followed(module, path, seen=frozenset()):
    """The modules and items to which a path leads that is written in a module."""
    places = first_step(module, path[0], seen)
    for name in path[1:]:
        places = [found for place in places if isinstance(place, Module)
                  for found in found_under(place, name, module.crate, seen)]
    return places


def type_named(module, written):
    """The item of a type that is written in a module, None where the type is from none of the crates."""
    path = re.match(r'(?:\w|::)*', written.replace(' ', ''))[0]
    places = followed(module, tuple(path.split('::'))) if path else []
    return next((place for place in places if isinstance(place, Item)), None)


# ---- types

def same(one, other):
    """Whether two are the same item, and don't only look alike."""
    return one is not None and (one.module, one.at) == (other.module, other.at)


def trait_and_type(head):
    """The trait, '' where there is none, and the type in the head of an `impl`."""
    _, rest = split_after_angles(' '.join(head.split())[len('impl'):].strip())
    trait, middle, written = re.sub(r'\bfor\s*<[^>]*>', '', rest).rpartition(' for ')
    return (trait.strip(), written.strip()) if middle else ('', rest)


def impls_of(item):
    """The `impl` blocks of a type, each with its trait, '' where it has none."""
    for module in modules_everywhere():
        for block in module.items:
            if block.kind == 'impl':
                trait, written = trait_and_type(block.head)
                if re.search(r'\b%s\b' % item.name, written) and same(type_named(module, written), item):
                    yield trait, block


def methods_of(item):
    """The methods of a trait, or the public methods of a type."""
    if item.kind == 'trait':
        return [member for member in members_of(item) if member.kind == 'fn']
    return [member for trait, block in impls_of(item) if not trait for member in members_of(block)
            if member.kind == 'fn' and member.public]


def behind_alias(item):
    """The type that an alias stands for, and the arguments that the alias gives it. Any other item stands for itself."""
    arguments = []
    while item.kind == 'type':
        written = item.head.partition('=')[2].strip()
        further = type_named(item.module, written)
        if further is None:
            break
        given = list(split_at_commas(split_after_angles(written[next_outside_brackets(written, 0, '<'):])[0]))
        item, arguments = further, given or arguments
    return item, arguments
