#!/usr/bin/env python3
"""Tries what docs/judge/PROVED.md cites: each name in backticks is a function, a type, a trait, a definition, a crate or a file
of the repository, and each clause in parentheses after it is one of its clauses, fields or ghost items. In the table of crates
the word before a name is its crate. In docs/change/CHANGING.md each file in backticks is there, in the crate that the line names
before it.

All pages are searched for links: each file is there, and each heading. A fenced block with a file behind its language, as
```rust crates/wh_host/src/host.rt, is a quotation: each part of it between blank lines stands in that file, in this order, but
for white space.

The map of docs/change/ARCHITECTURE.md has each crate of crates.txt once, in the same groups and the same order, and its arrows
say what the groups stand on; in crates.txt each crate comes after those that it stands on.

The minutes that docs/use/USAGE.md gives for the first build of each program are those that follow from costs.txt.

    tests/claims.py

The last line is `N tried, M wrong`, and the status is 1 where one is wrong."""

import functools
import re
import sys

import rust_items
from rows import TOP, try_rows, words_of

sys.path.insert(0, str(TOP / "bench"))
import costs
from rust_items import body_of, past_braces

code_of = functools.cache(rust_items.code_of)
PAGES = [*sorted(TOP.glob("*.md")), *sorted((TOP / "docs").glob("*/*.md"))]
# A name, and the clauses that are cited of it.
CITED = re.compile(r"`([^`]+)`(?: \(((?:\w+, )*\w+)\))?")
LINK = re.compile(r"\]\(([^)#:]*)(?:#([\w-]+))?\)")
# A block that quotes a file.
QUOTED = re.compile(r"^```\w+ (\S+)\n(.*?)^```$", re.DOTALL | re.MULTILINE)
# What a recipe names: a crate, or a file.
NAMED = re.compile(r"`([\w/]+\.(?:rt|antt|py|txt|toml|yaml|c))`|\b([a-z]+(?:_[a-z]+)+)\b")
# Where the files of a crate are, and those of no crate.
PLACES = ("src", "specs", ".")
# What a type parameter or a ghost item may be called in backticks, without being an item of its own.
WORDS = {"F", "W.program", "gives", "Wait", "wh_"}
# A definition, in a module too, up to the blank line behind it; a field of a record is none.
DEFINITION = r"^(?:(?: *(?:abbrev|unfoldable) )?pub | *pub (?:record|data) ){}\b.*?(?=\n\n|\Z)"
ITEM = r"\b(?:fn|struct|enum|trait|type|static|const)\s+{}\b"


@functools.cache
def groups_listed():
    """Returns the groups of crates.txt by their headings, each with its crates and what they stand on."""
    _, *parts = (TOP / "crates.txt").read_text(encoding="utf-8").split("\n\n")
    groups = {}
    for heading, *lines in (part.strip().split("\n") for part in parts):
        rows = (line.partition(":") for line in lines if not line.startswith("#"))
        groups[heading.removeprefix("# ")] = {name: uses.split() for name, _, uses in rows}
    return groups


def crates_listed():
    """Returns what each crate stands on, in the order of crates.txt."""
    return {name: uses for crates in groups_listed().values() for name, uses in crates.items()}


@functools.cache
def sources(crate="*", ending="rt"):
    """Returns the texts of the sources of a crate, or of all."""
    folder = "src" if ending == "rt" else "specs"
    return [file.read_text(encoding="utf-8") for file in sorted(TOP.glob(f"crates/{crate}/{folder}/**/*.{ending}"))]


def sources_with(name, crate, ending="rt"):
    """Returns those of the sources of a crate, or of all, in which a name stands."""
    return [text for text in sources(crate, ending) if name in text]


def heads(name, crate):
    """Yields the text of each item of a name: a function up to its body, a type or trait with its body and its impls."""
    for text in sources_with(name, crate):
        code = code_of(text)
        for found in re.finditer(ITEM.format(name), code):
            begin = body_of(code, found.end())
            is_function = found[0].startswith("fn")
            yield text[found.start() : begin if is_function else past_braces(code, begin)] if code[begin:] else text[found.start() :]
        for found in re.finditer(rf"\bimpl\b[^{{;]*\b{name}\b[^{{;]*\{{", code):
            yield text[found.start() : past_braces(code, found.end() - 1)]


def definitions(name, crate):
    """Yields the text of each definition of a name, up to the blank line behind it."""
    for text in sources_with(name, crate, "antt"):
        for found in re.finditer(DEFINITION.format(name), text, re.DOTALL | re.MULTILINE):
            yield found[0]


def methods(kind, name, crate):
    """Yields the head of a method in the impls of a type, and in its trait."""
    for text in heads(kind, crate):
        code = code_of(text)
        for found in re.finditer(rf"\bfn\s+{name}\b", code):
            yield text[found.start() : body_of(code, found.end())]


def texts_of(name, crate):
    """Returns the texts of what has the name: of a method those of its type's."""
    if "::" in name:
        return [*methods(*name.split("::"), crate)]
    own = [*heads(name, crate), *definitions(name, crate)]
    ghosts = [text for text in sources_with(name, crate) if re.search(rf"\bghost {name}\s*[:=]", text)] if not own else []
    return own + ghosts


def has_clause(text, clause):
    """Whether the text of an item has a clause, a field or a ghost item of the name."""
    return re.search(rf"\b(?:ensures|requires|ghost)\*? {clause}\b|\bpub {clause}\b", text) is not None


def with_traits(texts):
    """Returns texts, and those of the traits that their impls are of."""
    traits = {found[1] for text in texts for found in re.finditer(r"^impl\b[^{]*?\b(\w+)(?:<[^{]*>)? for ", text, re.MULTILINE)}
    return texts + [text for trait in sorted(traits) for text in heads(trait, "*")]


def wrong_name(name, clauses, crate):
    """Returns what is wrong with a citation, or None."""
    name = name.split("(")[0]
    if name in WORDS or name.startswith(("./", "-")) or " " in name:
        return None
    if "/" in name:
        return None if list(TOP.glob(name)) else f"{name} is no file"
    if name.endswith("*") or (TOP / "crates" / name).is_dir():
        return None if list(TOP.glob(f"crates/{name}")) else f"{name} is no crate"
    if any(name in uses for uses in crates_listed().values()):
        return None
    texts = texts_of(name, crate)
    if not texts:
        return f"{name} is not in {'any crate' if crate == '*' else crate}"
    lacking = [one for one in clauses if not any(has_clause(text, one) for text in with_traits(texts))]
    return f"{name} has no clause {', '.join(lacking)}" if lacking else None


def crate_before(text):
    """Returns the crate that the words before a name in the table of crates say, after the last semicolon, or None."""
    words = re.sub(r"`[^`]*`|\([^)]*\)", "", text.rpartition(";")[2])
    for word in reversed(re.findall(r"\b[a-z_]+\b", words)):
        if (TOP / "crates" / f"wh_{word}").is_dir():
            return f"wh_{word}"
    return None


def citations(page):
    """Yields the names that a page cites, with their clauses and the crate where they have to be."""
    is_by_crate = False
    for line in page.split("\n"):
        if line.startswith("## "):
            is_by_crate = line == "## By crate"
        for found in CITED.finditer(line):
            part = line[: found.start()].rpartition("|")[2] if is_by_crate and line.startswith("|") else ""
            yield found[1], found[2].split(", ") if found[2] else [], crate_before(part) or "*"


def anchors(page):
    """Returns the anchors of a page's headings, as GitHub makes them."""
    titles = re.findall(r"^#+ (.*)$", page, re.MULTILINE)
    return {re.sub(r"[^\w -]", "", title.lower()).replace(" ", "-") for title in titles}


def wrong_link(file, target, anchor):
    """Returns what is wrong with a link of a page, or None."""
    to = (file.parent / target).resolve() if target else file
    if not to.exists():
        return f"{target} is not there"
    if anchor and anchor not in anchors(to.read_text(encoding="utf-8")):
        return f"{to.name} has no heading {anchor}"
    return None


def wrong_quotation(name, block):
    """Returns what is wrong with a quotation of a file, or None."""
    file = TOP / name
    if not file.is_file():
        return f"{name} is not there"
    text, place = " ".join(file.read_text(encoding="utf-8").split()), 0
    for part in block.strip().split("\n\n"):
        wanted = " ".join(part.split())
        place = text.find(wanted, place)
        if place < 0:
            return f"{name} lacks: {wanted[:80]}"
        place += len(wanted)
    return None


def recipes(page):
    """Yields each file that the recipes name, with the crate that is named before it in the line, or None."""
    for line in page.split("\n## ", 1)[-1].split("\n"):
        crate = None
        for file, word in NAMED.findall(line):
            if file:
                yield file, crate
            elif (TOP / "crates" / word).is_dir():
                crate = word


def wrong_file(name, crate):
    """Returns what is wrong with a file that a recipe names, or None."""
    places = [TOP / "crates" / crate / one for one in PLACES] if crate else []
    is_there = any((place / name).is_file() for place in (*places, TOP, TOP / "tests/work"))
    return None if is_there else f"{name} is not in {crate or 'the repository'}"


def map_drawn(page):
    """Returns the map: the groups by their names, each with its crates, and the arrows from group to group."""
    section = re.search(r"^## The crates$.*?(?=^## )", page, re.DOTALL | re.MULTILINE)[0]
    groups, arrows = {}, set()
    names = dict(re.findall(r"^    (\w+)\[(.*)\]$", section, re.MULTILINE))
    for line in section.split("\n"):
        if found := re.match(r"    (\w[\w ]*): ", line):
            crates = groups.setdefault(found[1], [])
        elif found := re.match(r"      (\w+) ", line):
            crates.append(found[1])
        elif " --> " in line:
            tails, heads = (part.split(" & ") for part in line.strip().split(" --> "))
            arrows |= {(names.get(tail, tail), names.get(head, head)) for tail in tails for head in heads}
    return groups, arrows


def arrows_wanted(groups):
    """Returns the arrows from each group to those that it stands on, but not by way of another."""
    home = {name: group for group, crates in groups.items() for name in crates}
    below, arrows = {}, set()
    for group, crates in groups.items():
        # If it stands on a later group, the order of the crates is wrong.
        on = {home[use] for uses in crates.values() for use in uses if home.get(use) in below}
        below[group] = on.union(*(below[one] for one in on))
        arrows |= {(group, one) for one in on if not any(one in below[other] for other in on)}
    return arrows


def claims_of_map(page):
    """Yields each group, crate and arrow of crates.txt and of the map, with what is wrong with it."""
    listed, (drawn, arrows), crates = groups_listed(), map_drawn(page), crates_listed()
    yield "the groups", None if [*listed] == [*drawn] else f"the map has the groups {', '.join(drawn)}"
    for group, names in listed.items():
        why = "its crates are not those of crates.txt, in their order"
        yield group, None if drawn.get(group) == [*names] else why
    places = [name for names in drawn.values() for name in names]
    for name in dict.fromkeys([*crates, *places]):
        why = f"the map has it {places.count(name)} times" if name in crates else "it is no crate"
        yield name, None if name in crates and places.count(name) == 1 else why
    for place, name in enumerate(crates):
        later = [use for use in crates[name] if use in [*crates][place:]]
        yield f"the place of {name}", f"it comes before {', '.join(later)} in crates.txt" if later else None
    wanted = arrows_wanted(listed) if [*listed] == [*drawn] else set()
    for one in sorted(wanted | arrows):
        why = "it is not in the map" if one in wanted else "it is in the map, and should not be"
        yield f"the arrow {' --> '.join(one)}", None if one in wanted & arrows else why


def claims_of_times(page):
    """Yields the minutes that a page gives for the first build of each program, with what is wrong with them."""
    for _, program, *given in costs.TIMED.findall(page):
        wanted = costs.minutes_of(program)
        why = f"it has {' and '.join(given)} minutes, by costs.txt these are {' and '.join(wanted)}, which bench/costs.py --pages writes"
        yield f"the first build of {program}", None if given == wanted else why


def claims_of_all(file):
    """Yields each link and each quotation of a page, with what is wrong with it."""
    page = file.read_text(encoding="utf-8")
    for target, anchor in LINK.findall(page):
        yield f"{file.name}: {target}{'#' * bool(anchor)}{anchor}", wrong_link(file, target, anchor)
    for name, block in QUOTED.findall(page):
        yield f"{file.name}: a quotation of {name}", wrong_quotation(name, block)


def claims():
    """Yields each claim of the pages that is tried, with what is wrong with it."""
    for name, clauses, crate in citations((TOP / "docs/judge/PROVED.md").read_text(encoding="utf-8")):
        yield f"PROVED.md: {name}", wrong_name(name, clauses, crate)
    for name, crate in recipes((TOP / "docs/change/CHANGING.md").read_text(encoding="utf-8")):
        yield f"CHANGING.md: {name}", wrong_file(name, crate)
    for what, why in claims_of_map((TOP / "docs/change/ARCHITECTURE.md").read_text(encoding="utf-8")):
        yield f"ARCHITECTURE.md: {what}", why
    for what, why in claims_of_times((TOP / "docs/use/USAGE.md").read_text(encoding="utf-8")):
        yield f"USAGE.md: {what}", why
    for file in PAGES:
        yield from claims_of_all(file)


if __name__ == "__main__":
    sys.exit(try_rows(claims(), words_of(__doc__).parse_args()))
