"""What the checks read of a tree: Rattle functions, antt declarations, must-fail edits."""
import re
import sys
from dataclasses import dataclass
from pathlib import Path

# A token of Rattle code, and one of antt, of which a clause and an .antt file are made.
CODE = re.compile(r'''//[^\n]*|/\*|b?"(?:\\.|[^"\\])*"|b'(?:\\x\w\w|\\.|[^\\'])'|\w+|.''', re.S)
ANTT = re.compile(r'''--[^\n]*|\{-|"(?:\\.|[^"\\])*"|«[^»]*»|[^\s(){}.;,@"«»]+|.''', re.S)

CLAUSES = ('ghost', 'requires', 'ensures')
CLAUSE = re.compile(r'\s*\b(ghost|requires|ensures)\b\s*\w*\s*\{')
FUNCTION = re.compile(r'''(?P<pub>\bpub\b\s*(?P<scope>\([^)]*\))?\s*)?(?:\bextern\s+)?
                          \bfn\s+(?P<name>\w+)\s*(?:<[^(]*>)?\s*\(''', re.X)
TYPE_END = re.compile(r'[\[({\])};]|\b(?:where|ghost|requires|ensures)\b')
WHERE = re.compile(r'\s*where\b(?:(?!\b(?:ghost|requires|ensures)\b)[^{;])*')
BLOCK = re.compile(r'''\bimpl\s*(?:<[^{>]*>)?\s*(?:\w+::)*(?P<type>\w+)[^{};]*\{
                     | \bmod\s+(?P<module>\w+)\s*\{''', re.X)
STRUCT = re.compile(r'\bstruct\s+(\w+)\s*(?:<[^({;]*>)?\s*[({]')

# A declaration of antt starts its line; in a module block or a record it is set in, and `pub`.
DECLARED = re.compile(r'''^(?:[ ]+(?=(?:unfoldable[ ]|abbrev[ ])*pub[ ]))?(?:(?:unfoldable|abbrev|pub)\s+)*
                          (?:(?:data|record)\s+(?P<type>[^\s(){}]+)
                           | (?P<name>«[^»]*»|[^\s(){}.;,@"«»]+)\s*(?:\{[^}]*\}\s*)?:(?=\s))''', re.M | re.X)


@dataclass
class Clause:
    kind: str
    text: str
    start: int
    end: int


@dataclass
class Function:
    file: str
    name: str
    owner: str  # the type in whose impl block it stands, or ''
    modules: list
    public: bool
    params: list  # of (name, type)
    answer: str
    clauses: list
    start: int
    body: int  # where the body's brace opens
    end: int

    def label(self):
        return self.owner + '::' + self.name if self.owner else self.name


def root_of(argv):
    """The tree that a check is asked about: its argument, or the one that it stands in."""
    return Path(argv[1]).resolve() if len(argv) > 1 else Path(__file__).resolve().parent.parent


def finish(check, counted, faults):
    """Prints the faults and a last line with their number; exits with 1 where there is one."""
    for fault in faults:
        print('%s: %s' % (check, fault))
    print('%s: %s, %d faults' % (check, counted, len(faults)))
    sys.exit(1 if faults else 0)


def read(path):
    return path.read_text(encoding='utf-8')


def end_of_comment(text, at, opens, closes):
    """Where the comment ends that starts at a place; comments nest."""
    depth = 0
    for m in re.finditer('%s|%s' % (re.escape(opens), re.escape(closes)), text[at:]):
        depth += 1 if m.group() == opens else -1
        if depth == 0:
            return at + m.end()
    return len(text)


def plain(text, depth=0):
    """The text with comments and literals blanked out and all else at its place.

    The depth counts the braces of a clause; 0 is code. An .antt file reads as the inside of a clause.
    """
    out, at, awaited = [], 0, False
    while at < len(text):
        token = (ANTT if depth else CODE).match(text, at).group()
        if token == ('{-' if depth else '/*'):
            token = text[at:end_of_comment(text, at, token, token[::-1].replace('{', '}'))]
        at += len(token)
        if token.startswith(('--', '{-', '"') if depth else ('//', '/*', '"', 'b"', "b'")):
            out.append(re.sub(r'[^\n]', ' ', token))
            continue
        out.append(token)
        if depth:
            depth += (token == '{') - (token == '}')
        elif token == '{' and awaited:
            depth, awaited = 1, False
        elif not token.isspace():
            awaited = token in CLAUSES or awaited and token.isidentifier()
    return ''.join(out)


def closing(text, at):
    """The place after the bracket that closes the one at a place."""
    pair = {'(': ')', '{': '}', '[': ']'}[text[at]]
    depth = 0
    for i in range(at, len(text)):
        depth += (text[i] == text[at]) - (text[i] == pair)
        if depth == 0:
            return i + 1
    return len(text)


def parts(text, mark=','):
    """The text split at the marks that stand in no bracket."""
    out, depth, start = [], 0, 0
    for i, c in enumerate(text):
        depth += (c in '([{<') - (c in ')]}>')
        if c == mark and depth == 0:
            out.append(text[start:i])
            start = i + 1
    return [p.strip() for p in out + [text[start:]] if p.strip()]


def type_at(text, at):
    """The type that starts at a place, and where it ends."""
    depth = 0
    for m in TYPE_END.finditer(text, at):
        if depth == 0 and m.group() not in ('(', '['):
            return text[at:m.start()].strip(), m.start()
        depth += (m.group() in '([') - (m.group() in ')]')
    return text[at:].strip(), len(text)


def param_of(text):
    """The name and the type of a parameter; of `&mut self` they are `self` and the whole."""
    name, colon, kind = text.partition(':')
    return (re.sub(r'^mut\s+', '', name.strip()), kind.strip()) if colon else ('self', text)


def clauses_at(text, at):
    found = []
    m = CLAUSE.match(text, at)
    while m:
        at = closing(text, m.end() - 1)
        found.append(Clause(m.group(1), text[m.end():at - 1], m.start(1), at))
        m = CLAUSE.match(text, at)
    return found, at


def blocks(text):
    """The impl blocks and inline modules: (type, module, start, end)."""
    return [(m['type'], m['module'], m.start(), closing(text, m.end() - 1)) for m in BLOCK.finditer(text)]


def function_at(file, text, m, around):
    """The function whose header a match of FUNCTION begins; None if it has no body."""
    at = closing(text, m.end() - 1)
    params = [param_of(p) for p in parts(text[m.end():at - 1])]
    arrow = re.compile(r'\s*->').match(text, at)
    answer, at = type_at(text, arrow.end()) if arrow else ('', at)
    where = WHERE.match(text, at)
    clauses, at = clauses_at(text, where.end() if where else at)
    body = re.compile(r'\s*\{').match(text, at)
    if not body:
        return None
    inside = [b for b in around if b[2] < m.start() < b[3]]
    steps = [s for s in Path(file).with_suffix('').parts[3:] if s not in ('lib', 'main', 'mod')]
    return Function(
        file=file,
        name=m['name'],
        owner=''.join(b[0] for b in inside if b[0]),
        modules=steps + [b[1] for b in inside if b[1]],
        public=m['pub'] is not None and m['scope'] is None,
        params=params,
        answer='' if answer == '()' else answer,
        clauses=clauses,
        start=m.start(),
        body=body.end() - 1,
        end=closing(text, body.end() - 1),
    )


def functions_in(file, text):
    """The functions of a source file, given by its path from the root and its text."""
    bare = plain(text)
    around = blocks(bare)
    found = [function_at(file, bare, m, around) for m in FUNCTION.finditer(bare)]
    return [f for f in found if f]


def sources(root, crate='*'):
    """The Rattle files of a crate, or of all: (path from the root, text)."""
    return [(str(p.relative_to(root)), read(p)) for p in sorted(root.glob('crates/%s/src/**/*.rt' % crate))]


def functions(root, crate='*'):
    return [f for file, text in sources(root, crate) for f in functions_in(file, text)]


def structs(root):
    """The fields of each struct, by its name: (field, type); a tuple's fields are numbers."""
    found = {}
    for _, text in sources(root):
        bare = plain(text)
        for m in STRUCT.finditer(bare):
            inner = parts(bare[m.end():closing(bare, m.end() - 1) - 1])
            named = [re.sub(r'^pub\b\s*(\([^)]*\))?\s*', '', p).partition(':') for p in inner]
            found[m[1]] = [(n.strip(), t.strip()) if colon else (str(i), n) for i, (n, colon, t) in enumerate(named)]
    return found


def declared(text):
    """The names that an .antt file declares."""
    return {m['type'] or m['name'] for m in DECLARED.finditer(plain(text, 1))}


@dataclass
class Edit:
    crate: str
    label: str
    changes: list  # of (file, old, new)


def edit_at(path):
    """A must-fail edit, read as `rt` reads it: a `file:` line holds for the pairs after it."""
    file, old, changes = '', '', []
    for line in read(path).split('\n'):
        if line.startswith('file: '):
            file = line[len('file: '):]
        elif line.startswith('old: '):
            old = line[len('old: '):]
        elif line.startswith('new:'):
            changes.append((file, old, re.sub('^ ', '', line[len('new:'):])))
    return Edit(path.parts[-3], path.stem, changes)


def edits(root):
    return [edit_at(p) for p in sorted(root.glob('crates/*/must-fail/*.edit'))]
