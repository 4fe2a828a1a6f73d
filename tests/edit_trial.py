"""The trial of a crate's edits, in rounds: one check of a copy of its code with edits of different functions in place."""

import contextlib
import re
import shutil
import time
from pathlib import Path

import rust_items
from edit_crates import COMMANDS, PARTS, Wrong, link_or_copy, say

# What rattle says of each function, and of each impl with ghost items.
STATE = re.compile(r"^fn (\S+): (.*)$", re.MULTILINE)
IMPL_STATE = re.compile(r"^impl (\S+): (.*)$", re.MULTILINE)
PROVED = re.compile(r"(proved|no holes|depends on a hole)(\b|,|$)")
WAITS = re.compile(r"(no proof|not proved): it (calls|waits for) ")
OPEN = re.compile(r"did not prove (`.*)")
# A ghost item that does not hold.
UNTRUE = re.compile(r"antt refuses `([\w-]+)-value`")
UNTRUE_AT = re.compile(r"^(?:\./)?(src/\S+):\d+:\d+: error: `[\w-]+-value`: (.*)$", re.MULTILINE)
# What it says of an answer in a proof file; and where that says nothing of a contract, since a name is gone.
FAULT = re.compile(r"^(?:\./)?(proofs/\S+):\d+:\d+: error: (`[^`]*`): (.*)$", re.MULTILINE)
NAME_IS_GONE = re.compile(r"has no field|is not in scope|has no `|was not admitted")
# What it says where it can't read the code, or the text of a clause.
UNREAD = re.compile(
    r"^.*\berror\[[\w-]+\].*$"
    r"|^(?:\./)?(?:src|specs)/\S+:\d+:\d+: error: .*(?:is not in scope|has no field|is no name|is missing|expected).*$",
    re.MULTILINE,
)
# What it says where the machine gives it no memory, so that it can't tell.
NO_MEMORY = re.compile(
    r"could not allocate more memory|would not commit more memory|memory allocation of \d+ bytes failed"
    r"|antt's thread, which reserves"
)
# How often a check is tried that ends for memory.
TRIES = 5
# What it says of a library that was built over others than those that are there.
STALE = "Run the lower steps again"
# What it says of a hole for a function that it knows by another name.
NO_FUNCTION = re.compile(r"^(?:\./)?proofs/(\S+)/Proof\.antt: error: `\w+` has no function ", re.MULTILINE)
# What it says of a hole for a function of a cycle of calls, whose proof stands elsewhere.
IN_CYCLE = re.compile(r"^(?:\./)?proofs/(\S+)/Proof\.antt: error\[reserved-name\]", re.MULTILINE)
# A proof that is a hole.
HOLE = "use Rattle.{0}.proofs.{1}.Statement.{{statement}}\n\npub {2}_spec : {{M : Type 1}} → statement M\n{2}_spec = ?\n"


class Late(Exception):
    """The time was up before a check began."""


class Edit:
    """An edit: pairs of texts, of which the old one stands once in its file, and the functions that it changes."""

    def __init__(self, path):
        self.name, self.text = path.stem, path.read_text(encoding="utf-8")
        self.pairs = [*pairs_in(self.text)]
        # The functions that it changes, and whether it has to be tried by itself.
        self.changes, self.alone = set(), False

    def read(self, texts):
        """Notes which functions of these texts it changes."""
        made = self.applied_to(texts)
        self.changes = changed_functions(texts, made) or naming_functions(texts, *self.pairs[0][:2])
        if not self.changes:
            raise Wrong("it changes no function")

    def applied_to(self, texts):
        """These texts, by their files, with the edit in them."""
        made = dict(texts)
        for file, old, new in self.pairs:
            count = made.get(file, "").count(old)
            if count != 1:
                raise Wrong(f"an old text stands in {file} {count} times, and not once")
            made[file] = made[file].replace(old, new)
        if made == texts:
            raise Wrong("it changes nothing")
        return made


def pairs_in(text):
    """Yields the pairs of an edit, each with its file."""
    file = old = ""
    for line in text.split("\n"):
        kind, _, rest = line.partition(":")
        rest = rest[1:] if rest.startswith(" ") else rest
        if kind == "file":
            file = rest.strip()
        elif kind == "old":
            old = rest
        elif kind == "new":
            yield file, old, rest


def changed_functions(texts, made):
    """The functions of these texts that are others in those, or are gone."""
    changed = set()
    for file, text in texts.items():
        if made[file] != text:
            after = rust_items.functions_of(file, made[file])
            changed |= {name for name, code in rust_items.functions_of(file, text).items() if after.get(name) != code}
    return changed


def naming_functions(texts, file, old):
    """The functions that name the constant, static, type or trait whose text is changed, and the ghost items of all impls
    for a type of which the ghost items of one impl name it."""
    name = rust_items.item_at(rust_items.code_of(texts[file]), texts[file].index(old) + len(old))
    named = re.compile(rf"\b{name}\b")
    found = [item for path, text in texts.items() for item in rust_items.functions_of(path, text).items()]
    naming = {function for function, code in found if named.search(rust_items.code_of(code))}
    types = {one: of for text in texts.values() for one, of in rust_items.types_of_impls(text).items()}
    claimed = {types.get(function[1][-2]) for function in naming if is_ghost(function)} - {None}
    return naming | {function for function, _ in found if is_ghost(function) and types.get(function[1][-2]) in claimed}


def is_ghost(function):
    """Whether a function of these is the ghost items of an impl."""
    return function[1][-1] == rust_items.GHOSTS


class Check:
    """What a check said of the functions of a crate."""

    def __init__(self, crate, ran):
        self.crate, self.said, self.status = crate, ran.stdout, ran.returncode
        self.states, self.impls = dict(STATE.findall(ran.stdout)), dict(IMPL_STATE.findall(ran.stdout))

    def of(self, function):
        """What it said of a function and of the closures in it, or of the ghost items of an impl, by their names."""
        module, path = function
        states = self.impls if is_ghost(function) else self.states
        path = path[:-1] if is_ghost(function) else path
        exact = "::".join((self.crate.name, *module, *path))
        if exact in states:
            front, end = "::".join((self.crate.name, *module)), "::".join(path)
        else:
            # A method is named by the module of its type, and an impl by the own names of its trait's arguments.
            *of, name = path
            close = [re.sub(r"([A-Z]?[a-z0-9_]+)", r"\1\\w*", part) for part in of]
            front, end = rf"{self.crate.name}(::\w+)*?", "::".join([*close, name])
        mine = re.compile(rf"{front}::(fn::)?{end}(::.*|\+.*)?")
        return {name: state for name, state in states.items() if mine.fullmatch(name)}

    def of_edit(self, edit):
        return {one: state for function in edit.changes for one, state in self.of(function).items()}

    def refusal(self, edit):
        """Which open goal refuses an edit, or None."""
        for name, state in self.of_edit(edit).items():
            goals = OPEN.search(state)
            if goals:
                return f"{name} leaves {goals[1]}"
            untrue = UNTRUE.search(state)
            if untrue and name in self.impls and not NAME_IS_GONE.search(self.reason(name)):
                return f"{name} claims what does not hold, `{untrue[1]}`"
            if not PROVED.match(state) and not WAITS.match(state):
                for goal, why in self.faults(name):
                    if not NAME_IS_GONE.search(why):
                        return f"{name} leaves {goal}"
        return None

    def faults(self, name):
        """The goals whose answers in the proof files of a function are refused, each with the reason."""
        folder = "/".join(("proofs", *name.split("::")[1:], ""))
        return [(goal, why) for file, goal, why in FAULT.findall(self.said) if file.startswith(folder)]

    def reason(self, name):
        """Why it refuses the ghost items of an impl: its errors in the file of the impl."""
        file = "/".join(("src", *(name.split("::")[1:-1] or [Path(self.crate.root).stem]))) + ".rt"
        return "\n".join(why for where, why in UNTRUE_AT.findall(self.said) if where == file)

    def proves(self, edit):
        """Whether it proved all functions that an edit changes."""
        states = self.of_edit(edit).values()
        return bool(states) and all(map(PROVED.match, states))

    def waits(self, edit):
        """Whether a function that it changes waits for the proof of another."""
        return any(WAITS.match(state) for state in self.of_edit(edit).values())

    def complaint(self, edit):
        """Why an edit that nothing refuses is wrong."""
        states = self.of_edit(edit)
        if self.proves(edit):
            return "NOT REFUSED: each function that it changes is still proved"
        unread = UNREAD.search(self.said)
        if unread:
            return f"BAD EDIT: it doesn't compile: {unread[0].strip()[:200]}"
        gone = [f"{goal}: {why}" for name in states for goal, why in self.faults(name)]
        if gone:
            return f"BAD EDIT: it only takes away a name that a proof file cites: {gone[0][:200]}"
        return f"NOT TRIED: its check ended with status {self.status}: {'; '.join(states.values()) or self.said[-300:]}"


class Trial:
    """The trial of the edits of a crate, in which no round begins after a time. A round takes each function that it does not
    try by its contract: the proof of such a function is a hole there, and is not looked at. What is refused is noted in a
    store, if one is given, and what that holds is not tried."""

    def __init__(self, crate, kit, room, until, store=None, begin=contextlib.nullcontext):
        self.crate, self.kit, self.room, self.until, self.store, self.begin = crate, kit, room, until, store, begin
        self.rounds = self.refused = self.left = self.seconds = self.taken = 0
        # The names of the edits that are wrong.
        self.wrong = []
        files = sorted((crate.folder / "src").rglob("*.rt"))
        self.texts = {str(file.relative_to(crate.folder)): file.read_text(encoding="utf-8") for file in files}
        functions = [rust_items.functions_of(file, text) for file, text in self.texts.items()]
        self.functions = {function for found in functions for function in found}
        self.methods = [path for found in functions for _, path in found]
        # Names for which there is no function, and so no hole; and what a round refused.
        self.unknown, self.refusals = set(), []

    def note(self, edit, text, is_wrong):
        """Says what came of an edit, and counts it."""
        self.wrong += [edit.name] * is_wrong
        self.refused += not is_wrong
        say(f"{self.crate.name}/{edit.name}: {text[:300]}")

    def try_all(self):
        """Tries each edit, and says what comes of it."""
        left = [edit for edit in map(Edit, self.crate.edits()) if self.is_read(edit) and not self.is_kept(edit)]
        if left:
            self.copy()
        with contextlib.suppress(Late):
            while left and time.monotonic() < self.until:
                chosen, texts = self.choose(left)
                judged = self.judge(chosen, self.check(chosen, texts))
                left = [edit for edit in left if edit not in judged]
        self.left = len(left)
        words = f"{self.refused} edits refused, {self.taken} of them earlier, {len(self.wrong)} wrong, {self.left} left"
        say(f"{self.crate.name}: {words}, in {self.rounds} rounds, with {self.seconds:.0f} seconds of a processor")

    def is_read(self, edit):
        """Whether an edit can be applied, and which functions it changes; where it can't, that is said."""
        try:
            edit.read(self.texts)
        except Wrong as why:
            self.note(edit, f"BAD EDIT: {why}", True)
        return bool(edit.changes)

    def is_kept(self, edit):
        """Whether it is kept that an edit was refused."""
        is_kept = self.store is not None and self.store.holds(self.crate, edit)
        self.taken += is_kept
        self.refused += is_kept
        return is_kept

    def copy(self):
        """Copies what a check reads and begins with."""
        for part in PARTS:
            if (self.crate.folder / part).is_dir():
                shutil.copytree(self.crate.folder / part, self.room / part)
        if self.crate.kept.is_dir():
            shutil.copytree(self.crate.kept, self.room / "kept", copy_function=link_kept)
        (self.room / "kept").mkdir(exist_ok=True)

    def choose(self, edits):
        """Chooses edits of different functions for a round, and returns them with the texts that they make."""
        together = [edit for edit in edits if not edit.alone] or edits[:1]
        chosen, texts, changed = [], self.texts, set()
        for edit in together:
            if not changed & edit.changes:
                try:
                    texts = edit.applied_to(texts)
                except Wrong:
                    continue
                chosen.append(edit)
                changed |= edit.changes
        return chosen, texts

    def check(self, edits, texts):
        """Checks the functions that these edits change, with these texts."""
        functions = {function for edit in edits for function in edit.changes}
        check = None
        if not any(map(is_ghost, functions)):
            names = [f"--only={self.name_of(*function)}" for function in sorted(functions)]
            # An edit that is tried by itself gets the proofs as they are.
            has_holes = not any(edit.alone for edit in edits)
            check = self.check_only(functions if has_holes else None, texts, names)
            while in_cycles := {*IN_CYCLE.findall(check.said)} - self.unknown:
                self.unknown |= in_cycles
                check = self.check_only(functions, texts, names)
        # Where rattle names one of them otherwise, or nothing but a whole check looks at it, all are checked.
        if check is None or check.status == 2:
            self.write_proofs(None)
            check = self.run(texts)
        if STALE in check.said:
            raise Wrong("its libraries were not built over one another: run `rt check` in its folder")
        self.unknown |= {*NO_FUNCTION.findall(check.said)}
        self.rounds += 1
        return check

    def check_only(self, tried, texts, names):
        """Checks these functions alone, with a hole for each that is not tried, where some are."""
        self.write_proofs(tried)
        return self.run(texts, *names, *(["--allow-holes"] if tried is not None else []))

    def name_of(self, module, path):
        """A name for a function: its path, without the module where no other method has the same."""
        return "::".join(path if len(path) > 1 and self.methods.count(path) == 1 else (*module, *path))

    def write_proofs(self, tried):
        """Writes the proof files as they stand, but a hole for each function that is not tried, where some are."""
        theirs, made = self.crate.folder / "proofs", self.room / "proofs"
        shutil.rmtree(made, ignore_errors=True)
        if theirs.is_dir():
            shutil.copytree(theirs, made)
        for module, path in self.functions - tried if tried is not None else ():
            names = (*module, *path)
            folder = made.joinpath(*names)
            # A proof by hand may have lemmas that others cite.
            if path[-1] != rust_items.GHOSTS and "/".join(names) not in self.unknown and not (folder / "Proof.antt").exists():
                folder.mkdir(parents=True, exist_ok=True)
                for file in ("Answers.antt", "Invariants.antt"):
                    (folder / file).unlink(missing_ok=True)
                (folder / "Proof.antt").write_text(HOLE.format(self.crate.name, ".".join(names), names[-1]), encoding="utf-8")

    def run(self, texts, *flags):
        """Runs a check of these texts, and again where it ends for memory, which says nothing of the edits."""
        for file, text in texts.items():
            (self.room / file).write_text(text, encoding="utf-8")
        words = [*self.kit.check, *self.crate.words(self.kit), "--jobs", "1", "--incremental", "kept"]
        for ended in range(TRIES):
            with self.begin(ended):
                # It may have waited long for memory.
                if time.monotonic() > self.until:
                    raise Late
                ran, seconds = COMMANDS.run([*words, *flags], self.room)
            self.seconds += seconds
            # A signal came most likely for memory too.
            if ran.returncode >= 0 and not (ran.returncode and NO_MEMORY.search(ran.stdout)):
                break
            if not COMMANDS.are_over:
                say(f"{self.crate.name}: try {ended + 1} of {TRIES} ended with status {ran.returncode}, most likely for memory")
        else:
            # What such a check says of its functions refuses nothing.
            ran.stdout = "no try got the memory that it needs"
        return Check(self.crate, ran)

    def judge(self, edits, check):
        """Says what came of the edits of a round, and returns those that are settled. Where nothing did, each is to be
        tried by itself."""
        settled = [edit for edit in edits if self.is_settled(edit, check, len(edits) == 1 and edits[0].alone)]
        if not check.states and len(edits) > 1:
            settled = [edit for edit in edits if not self.compiles(edit)]
        for edit in edits:
            edit.alone = edit.alone or not settled or not (edit in settled or check.waits(edit) or not check.states)
        if self.store is not None:
            self.store.keep(self.crate, self.refusals)
        self.refusals = []
        return settled

    def is_settled(self, edit, check, is_alone):
        """Whether a check settles what comes of an edit, which is then said."""
        refusal = check.refusal(edit)
        if refusal:
            self.note(edit, f"refused: {refusal}", False)
            self.refusals.append((edit, refusal))
        elif is_alone:
            self.note(edit, check.complaint(edit), True)
        return bool(refusal or is_alone)

    def compiles(self, edit):
        """Whether the compiler takes an edit by itself, or there is no time to see that; where it doesn't, that is said."""
        self.write_proofs(None)
        try:
            check = self.run(edit.applied_to(self.texts), "--only=")
        except Late:
            return True
        is_read = re.search(r"^only=", check.said, re.MULTILINE)
        if not is_read:
            self.note(edit, check.complaint(edit), True)
        return bool(is_read)


def link_kept(source, target):
    """Gives a file that a check kept a second name, where it is one that a check replaces and does not change."""
    return link_or_copy(source, target) if source.endswith(".oantt") else shutil.copy2(source, target)
