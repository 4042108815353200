"""Rattle source, read item by item: functions with their calls, constants, types, imports. It goes by tokens, so that comments, contracts and layout do not matter."""
import collections, re

TOKEN = re.compile(r"""(?P<space>\s+|//[^\n]*)|(?P<bytes>b?"(?:[^"\\]|\\.)*")|(?P<byte>b'(?:[^'\\]|\\.)')|(?P<life>'\w+)|(?P<name>[^\W\d]\w*)|(?P<number>\d\w*)
    |(?P<mark>::|->|=>|==|!=|<=|>=|&&|\|\||\.\.=?|<<|>>|[^\s\w])""", re.X)
Token = collections.namedtuple("Token", "kind text start end")
# kind: use, ghost, mod, const, type, struct, enum, fn. owner: the type of an impl, or nothing. head: of a function its parameters and result, of
# any other item all of it. contract, body: of a function. start, end: its characters, with the comment above it.
Item = collections.namedtuple("Item", "kind name owner start end line head contract body")
CLOSING = {"(": ")", "[": "]", "{": "}"}
LENT = {"len"}  # methods of a slice
VALUES = {"Ok", "Err", "Some", "None"}  # values of the language's own types
# The line writer, which tools/take-writer takes out and tests/writer holds.
WRITER = ("write", "write_at")
KEYWORDS = set("as break const continue else enum extern fn for ghost if impl in let loop match mod mut pub return self struct type use while".split())


def tokens(text):
    found = [Token(m.lastgroup, m.group(), m.start(), m.end()) for m in TOKEN.finditer(text)]
    return [token for token in found if token.kind != "space"]


def matching(words, i):
    """The place of the mark that closes the one at i."""
    depth = 0
    for k in range(i, len(words)):
        depth += (words[k].text in CLOSING) - (words[k].text in CLOSING.values())
        if depth == 0:
            return k
    raise ValueError(f"nothing closes the {words[i].text} at character {words[i].start}")


def until(words, i, marks):
    """The place of the first of these marks from i on, outside of brackets."""
    while words[i].text not in marks:
        i = matching(words, i) + 1 if words[i].text in CLOSING else i + 1
    return i


def with_comment(text, start):
    """Where an item begins, with the lines of comment above it."""
    start = text.rfind("\n", 0, start) + 1
    while True:
        above = text.rfind("\n", 0, max(start - 1, 0)) + 1
        if start == 0 or not text[above:start].lstrip().startswith("//"):
            return start
        start = above


def items(text):
    """The items of a source text, in order; those of an impl with its type as owner."""
    return list(between(text, tokens(text), 0, None, None))


def between(text, words, i, end, owner):
    end = len(words) if end is None else end
    while i < end:
        if [word.text for word in words[i:i + 2]] == ["#", "!"]:  # an attribute of the file
            i = matching(words, i + 2) + 1
            continue
        first = i
        while words[i].text in ("#", "pub", "extern") or words[i].kind == "bytes":
            i = matching(words, i + 1) + 1 if words[i].text == "#" else i + 1
        kind, name = words[i].text, words[i + 1].text
        contract = body = ()
        if kind == "impl":
            opened = until(words, i, "{")
            last = matching(words, opened)
            yield from between(text, words, opened + 1, last, name)
            i = last + 1
            continue
        if kind == "fn":
            head_end = until(words, i + 2, ("requires", "ensures", "{"))
            head, k = words[i + 2:head_end], head_end
            while words[k].text in ("requires", "ensures"):  # a clause may have a name
                k = matching(words, until(words, k + 1, "{")) + 1
            last = matching(words, k)
            contract, body = words[head_end:k], words[k + 1:last]
        else:
            last = until(words, i, ";{" if kind in ("struct", "enum") else ";")
            last = matching(words, last) if words[last].text == "{" else last
            head = words[i + 1:last + 1]
        start = with_comment(text, words[first].start)
        yield Item(kind, name, owner, start, words[last].end, text.count("\n", 0, words[i].start) + 1, head, contract, body)
        i = last + 1


def names(words):
    return {token.text for token in words if token.kind == "name"} - KEYWORDS


def calls(item):
    """What a function calls, as it is written: f, Type::f, crate::f, .f for a method."""
    words = item.body
    for i, token in enumerate(words[:-1]):
        if token.kind != "name" or token.text in KEYWORDS or words[i + 1].text != "(":
            continue
        k = i
        while k >= 2 and words[k - 1].text == "::":
            k -= 2
        dot = k > 0 and words[k - 1].text == "."
        yield ("." if dot else "") + "".join(word.text for word in words[k:i + 1])


def by_name(items, *kinds):
    """The items of these kinds by name, those of an impl with its type in front."""
    return {(f"{item.owner}::" if item.owner else "") + item.name: item for item in items if item.kind in kinds}


def callees(item, functions, types):
    """Each call of a function: the name of the function that it is, or None where it is none of these; and the call. Values of types are no calls."""
    for call in calls(item):
        path = call.removeprefix("crate::").removeprefix("self::")
        owner, _, name = path.rpartition("::")
        type_ = types.get(owner.split("::")[-1])
        if path in functions:
            yield path, call
        elif call.startswith("."):
            own = [key for key, function in functions.items() if function.owner and function.name == call[1:]]
            yield from ((key, call) for key in own or [None] if own or call[1:] not in LENT)
        elif path not in types and path not in VALUES and not (type_ and type_.kind == "enum" and name in names(type_.head)):
            yield None, call


def reached(functions, types, entries):
    """The functions that these reach, by name, and the calls of them that are of no function there: pairs of a name and a call."""
    found, left, strays = {}, list(entries), []
    while left:
        key = left.pop(0)
        if key not in found:
            found[key] = functions[key]
            pairs = list(callees(functions[key], functions, types))
            left += [callee for callee, _ in pairs if callee]
            strays += [(key, call) for callee, call in pairs if not callee]
    return found, strays


def pages(text):
    """The pages of specs and proofs that a source or a page cites: crate, part and name."""
    return re.findall(r"^(?:pub )?(?:ghost )?use Rattle\.(\w+)\.(specs|proofs)\.(\w+)", text, re.M)
