"""The page of `mig view`: one HTML file with its style, its scripts and what they draw, which no browser lets load or send anything. Its
parts stand in front/view. What comes out of a file is escaped where it stands as text, and else packed, as letters of base64."""
import base64
import hashlib
import html
import json
import os
import string
import zlib

TYPE_CHECKING = False                                # a checker of types takes it for true; typing itself is slow to load
if TYPE_CHECKING:
    from typing import Any, Dict, Iterable

PARTS = os.path.join(os.path.dirname(os.path.abspath(__file__)), 'view')
MOST_BYTES = 2 * 1000 * 1000                         # of a page
POLICY = "default-src 'none'; script-src %s %s; style-src %s; base-uri 'none'; form-action 'none'"


def part(name: str) -> str:
    with open(os.path.join(PARTS, name), encoding='utf-8') as file:
        return file.read()


def hashed(text: str) -> str:
    """By what the policy of a page knows a script or a style."""
    return "'sha256-%s'" % base64.b64encode(hashlib.sha256(text.encode()).digest()).decode()


def entry(line: str) -> str:
    """A line `name: value` as an entry of a list."""
    name, _, value = line.strip().partition(': ')
    return '<div><dt>%s</dt><dd>%s</dd></div>' % (html.escape(name.rstrip(':')), html.escape(value))


def page_of(title: str, verdict: str, is_whole: bool, lines: 'Iterable[str]', drawn: 'Dict[str, Any]') -> bytes:
    """The page that shows an object, below a title, a verdict and lines of what is told of the file."""
    library, script, style = part('d3.min.js'), part('view.js'), part('view.css')
    data = zlib.compress(json.dumps(drawn, separators=(',', ':')).encode(), 6)
    return string.Template(part('page.html')).substitute(
        policy=html.escape(POLICY % (hashed(library), hashed(script), hashed(style)), quote=False), title=html.escape(title),
        verdict=html.escape(verdict), result='told-whole' if is_whole else 'refused', info='\n'.join(map(entry, lines)),
        data=base64.b64encode(data).decode(), licence=html.escape(part('d3.LICENSE')), library=library, script=script, style=style,
    ).encode('utf-8', 'backslashreplace')
