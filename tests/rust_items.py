"""The functions of a text of Rattle, and the ghost items of its impls: where they stand, and how rattle names them."""

import re

# What a text is made of: what is blank, where a comment opens, a string or a character, a word, and any other sign.
TOKEN = re.compile(
    r"""(?P<blank>//[^\n]*|\s+)|(?P<comment>/\*)|(?P<text>b?r(#*)".*?"\4|b?"(?:[^"\\]|\\.)*"|b?'(?:[^'\\\n]|\\[^'\n]+)')"""
    r"""|(?P<code>[A-Za-z_]\w*|.)""",
    re.DOTALL,
)
# A word that begins an item with a body, or a ghost item of an impl; or what stands between items.
ITEM = re.compile(r"\b(fn|impl|mod|trait|ghost(?=\s+\w+\s*=))\b|[{};]")
# The last name of the path of the ghost items of an impl, which are one item: what the impl claims.
GHOSTS = "ghost"
# What stands before a brace that opens a clause, and no body.
CLAUSE = re.compile(r"\b(requires|ensures)\s*\*?\s*\w*\s*$|\bghost(\s+\w+)?\s*[:=]?\s*$")


def code_of(text):
    """Returns a text with blanks for its comments, strings and characters, as long as it was."""
    made, at = [], 0
    while at < len(text):
        found = TOKEN.match(text, at)
        end = past_comment(text, found.end()) if found["comment"] else found.end()
        made.append(found[0] if found["code"] else re.sub(r"[^\n]", " ", text[at:end]))
        at = end
    return "".join(made)


def past_comment(text, at):
    """Returns the end of a comment that opened before a place, and may have others in it."""
    depth = 1
    for found in re.compile(r"/\*|\*/").finditer(text, at):
        depth += 1 if found[0] == "/*" else -1
        if not depth:
            return found.end()
    return len(text)


def past_braces(code, at):
    """Returns the end of what the brace at a place opens."""
    depth = 0
    for found in re.compile(r"[{}]").finditer(code, at):
        depth += 1 if found[0] == "{" else -1
        if not depth:
            return found.end()
    return len(code)


def body_of(code, at):
    """Returns where the body of an item begins whose head begins at a place: at its brace, or its semicolon."""
    begin = at
    for found in iter(lambda: re.compile(r"[{;]").search(code, at), None):
        if found[0] == ";" or not CLAUSE.search(code[begin : found.start()]):
            return found.start()
        at = past_braces(code, found.start())
    return len(code)


def functions_in(code, at=0, end=None, path=()):
    """Yields the functions with a body and the ghost items of a text without comments and strings: the path, as rattle
    writes it, and the places where each begins and ends."""
    end = len(code) if end is None else end
    for item in iter(lambda: ITEM.search(code, at, end), None):
        if item[0] in "{};":
            at = past_braces(code, item.start()) if item[0] == "{" else item.end()
            continue
        if item[0] == "ghost":
            at = past_braces(code, code.index("{", item.end()))
            yield (*path, GHOSTS), item.start(), at
            continue
        body = body_of(code, item.end())
        at = past_braces(code, body) if code[body : body + 1] == "{" else body + 1
        name = segment_of(item[0], code[item.end() : body])
        if code[body : body + 1] != "{":
            continue
        if item[0] == "fn":
            yield (*path, name), item.start(), at
        else:
            yield from functions_in(code, body + 1, at - 1, (*path, name))


def types_of_impls(text):
    """Returns the type of each impl of a text, by the name that a path has for the impl."""
    code, types = code_of(text), {}
    for found in re.finditer(r"\bimpl\b([^{;]*)\bfor\b([^{;]*)\{", code):
        types[segment_of("impl", f"{found[1]} for {found[2]}")] = last_name(re.sub(r"\bwhere\b.*", "", found[2], flags=re.DOTALL))
    return types


def segment_of(word, head):
    """Returns how a path names an item with this head: an impl by its type, then its trait with the types of that."""
    if word != "impl":
        return re.match(r"\s*(\w+)", head)[1]
    head = re.sub(r"\bwhere\b.*", "", without_parameters(head), flags=re.DOTALL)
    trait, _, of = head.rpartition(" for ")
    name = last_name(of)
    if not trait or last_name(trait) == "Drop":
        return name
    # `std::io::Error` is another name of `IoError`, and rattle takes a type's own name.
    arguments = re.search(r"<(.*)>", re.sub(r"\bio::Error\b", "IoError", trait), re.DOTALL)
    return name + last_name(trait) + "".join(re.findall(r"\b[A-Z]\w+", arguments[1] if arguments else ""))


def without_parameters(head):
    """Returns the head of an impl without its own type parameters."""
    head, depth = head.lstrip(), 0
    for at, sign in enumerate(head if head.startswith("<") else ""):
        depth += {"<": 1, ">": -1}.get(sign, 0)
        if not depth:
            return head[at + 1 :]
    return head


def last_name(path):
    """Returns the last name of a type's or trait's path, before its arguments. A tuple has the name of its first type."""
    named = re.match(r"\s*&?\s*(?:'\w+\s*)?(?:mut\s+)?(?:\w+\s*::\s*)*(\w+)", path) or re.search(r"(\w+)", path)
    return named[1]


def functions_of(file, text):
    """Returns the code of the functions of a file, and of the ghost items of each impl, by their paths below the crate."""
    *folders, stem = file.split("/")[1:]
    module = (*folders, stem[: -len(".rt")])
    module = module[:-1] if module[-1] in ("lib", "main", "mod") else module
    code = code_of(text)
    found = {}
    for path, begin, end in functions_in(code):
        # The code finds them; the text tells two apart that differ in a string.
        found[module, path] = found.get((module, path), "") + text[begin:end]
    return found


def item_at(code, at):
    """Returns the name of the constant, static, type or trait whose item begins last before a place, or None."""
    found = [*re.finditer(r"\b(?:const|static|struct|enum|type|trait)\s+(?:mut\s+)?(\w+)", code[:at])]
    return found[-1][1] if found else None
