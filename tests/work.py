#!/usr/bin/env python3
"""Plays the talks of the folder work/ with `wfhost work`, and compares each request of it, byte for byte, with the one
that stands there, written by hand. It ends with status 1 where something differs.

A talk is a file of lines:

    # WORDS          a comment
    run WORDS        the options of the command, after those that all talks have; @top in one is the folder of the repository,
                     @new a folder that is made for the talk
    program NAME     the crate whose program is called, if it is not the one that is given
    called PATH      the path by which the program is called, otherwise its own
    let NAME TEXT    $NAME stands for the text in what is sent
    -> LINE          the next request, which has to be this line
    => LINE          so too, but those that stand one after another come in any order; @NAME in one is a number, and from
                     then on that number, but @any is any number each time
    =N> LINE         so too, N times the same line
    <- LINE          a line that is sent to the program
    <% LINE          so too; \\xNN is a byte
    <+ NUMBER        so too, of as many letters
    pause N          N seconds go by
    lasts N          at least N seconds have gone by since the program was started
    end              its input ends here
    status N         its exit status, otherwise 0
    says TEXT        what is within one of the lines on its standard error
    hides TEXT       what is within none of them
    sees FILE LINE   a line that a file in @new has now, or gets soon
    has FILE LINE    a line that a file in @new has at the end; its lines stand one after another, @any in one is any number,
                     and @new has no other file
"""

import os
import re
import select
import subprocess
import sys
import tempfile
import time
from functools import partial
from pathlib import Path

from rows import PROGRAM, Wrong, need, pick, try_rows, words_of

HERE = Path(__file__).resolve().parent
OPTIONS = ["--task-queue", "q", "--namespace", "default", "--identity", "me"]
TIMES = ["--activity-timeout", "60", "--activity-attempts", "1", "--sticky-timeout", "10"]
LIMIT_SECONDS = 20


class Worker:
    """The program, by its pipes."""

    def __init__(self, program, called, words):
        command = [called, *program[1:], "work", *OPTIONS, *TIMES, *words]
        pipe = subprocess.PIPE
        self.child = subprocess.Popen(command, executable=program[0], stdin=pipe, stdout=pipe, stderr=pipe)
        self.held = b""
        self.begun = time.monotonic()
        self.until = self.begun + LIMIT_SECONDS

    def next_line(self):
        """The next line of its output, without its end; none where the output has ended."""
        while b"\n" not in self.held:
            ready, _, _ = select.select([self.child.stdout], [], [], max(0, self.until - time.monotonic()))
            if not ready:
                raise Wrong("nothing comes")
            some = os.read(self.child.stdout.fileno(), 65536)
            if not some:
                if self.held:
                    raise Wrong(f"the last line has no end: {self.held!r}")
                return None
            self.held += some
        line, _, self.held = self.held.partition(b"\n")
        return line

    def send(self, line):
        try:
            self.child.stdin.write(line + b"\n")
            self.child.stdin.flush()
        except BrokenPipeError:
            raise Wrong(f"it has ended before {line.decode(errors='replace')}")

    def end(self):
        """Waits for its end: its status and what it has said."""
        line = self.next_line()
        if line is not None:
            raise Wrong(f"one more request: {line.decode(errors='replace')}")
        try:
            _, said = self.child.communicate(timeout=max(1, self.until - time.monotonic()))
        except subprocess.TimeoutExpired:
            raise Wrong("it does not end")
        return self.child.returncode, said.decode(errors="replace")


def with_names(text, names, mark):
    """The text with what the marked names stand for."""
    return re.sub(mark + r"([a-z]+)", lambda found: names.get(found[1], found[0]), text)


def group(name):
    """What matches a number of this name."""
    return "[0-9]+" if name == "any" else f"(?P<{name}>[0-9]+)"


def same(request, wanted, numbers):
    """Whether the request is the wanted line. Numbers that the line names for the first time are noted."""
    parts = re.split(r"@([a-z]+)", with_names(wanted, numbers, "@"))
    form = "".join(re.escape(part) if i % 2 == 0 else group(part) for i, part in enumerate(parts))
    found = re.fullmatch(form, request)
    if found:
        numbers.update(found.groupdict())
    return bool(found)


def expect(worker, wanted, numbers):
    """The next requests are the wanted lines, in any order."""
    while wanted:
        line = worker.next_line()
        if line is None:
            raise Wrong(f"it has ended in place of {wanted[0]}")
        request = line.decode(errors="replace")
        for one in wanted:
            if same(request, one, numbers):
                wanted.remove(one)
                break
        else:
            raise Wrong(f"the request\n  {request}\nin place of\n  {wanted[0]}")


def bytes_of(text):
    """The bytes of a text in which \\xNN is a byte."""
    return re.sub(rb"\\x([0-9a-f]{2})", lambda found: bytes.fromhex(found[1].decode()), text.encode())


def is_in_any_order(word):
    """Whether a word stands before requests that come in any order."""
    return re.fullmatch("=[0-9]*>", word) is not None


def built(crate):
    """The program of a crate."""
    path = HERE.parent / "crates" / crate / "out" / crate
    if not path.exists():
        raise Wrong(f"{path} is not there: `rt run` in crates/{crate} builds it")
    return str(path)


class Talk:
    """A talk with a worker, line by line."""

    def __init__(self, program, lines):
        program = next(([built(line.split()[1])] for line in lines if line.startswith("program ")), program)
        called = next((line.partition(" ")[2] for line in lines if line.startswith("called ")), program[0])
        self.room = tempfile.TemporaryDirectory()
        self.new = Path(self.room.name)
        words = next(line.split()[1:] for line in lines if line.startswith("run "))
        places = {"top": str(HERE.parent), "new": self.room.name}
        self.worker = Worker(program, called, [with_names(word, places, "@") for word in words])
        self.lines, self.texts, self.numbers = lines, {}, {}
        self.status, self.says, self.hides, self.wanted, self.files = 0, [], [], [], {}

    def play(self):
        """Plays it to its end."""
        try:
            for line in self.lines:
                word, _, rest = line.partition(" ")
                if not is_in_any_order(word) and self.wanted:
                    expect(self.worker, self.wanted, self.numbers)
                self.take(word, rest)
            self.compare(*self.worker.end())
        finally:
            if self.worker.child.poll() is None:
                self.worker.child.kill()
                self.worker.child.wait()
            self.room.cleanup()

    def take(self, word, rest):
        """Does what a line says."""
        if is_in_any_order(word):
            self.wanted += [rest] * int(word[1:-1] or 1)
        elif word == "->":
            expect(self.worker, [rest], self.numbers)
        elif word == "<-":
            self.worker.send(with_names(with_names(rest, self.texts, r"\$"), self.numbers, "@").encode())
        elif word == "<%":
            self.worker.send(bytes_of(rest))
        elif word == "<+":
            self.worker.send(b"x" * int(rest))
        elif word == "let":
            name, _, text = rest.partition(" ")
            self.texts[name] = text
        elif word == "pause":
            time.sleep(float(rest))
        elif word == "lasts":
            self.last(float(rest))
        elif word == "end":
            self.worker.child.stdin.close()
            self.worker.child.stdin = None
        elif word == "status":
            self.status = int(rest)
        elif word == "says":
            self.says.append(rest)
        elif word == "hides":
            self.hides.append(rest)
        elif word == "sees":
            self.see(*rest.split(" ", 1))
        elif word == "has":
            name, line = rest.split(" ", 1)
            self.files.setdefault(name, []).append(line)

    def see(self, name, line):
        """A file has the line now, or gets it soon."""
        path = self.new / name
        while not path.exists() or line not in path.read_text().splitlines():
            if time.monotonic() > self.worker.until:
                raise Wrong(f"{name} does not get the line {line}")
            time.sleep(0.1)

    def last(self, seconds):
        """So many seconds have gone by since the program was started."""
        gone = time.monotonic() - self.worker.begun
        if gone < seconds:
            raise Wrong(f"only {gone:.2f} seconds have gone by, not {seconds}")

    def compare(self, status, said):
        """Its end has to be the one that the talk wants."""
        if status != self.status:
            raise Wrong(f"status {status}, not {self.status}; it says {said!r}")
        for text in self.says:
            if not any(text in line for line in said.splitlines()):
                raise Wrong(f"it does not say {text!r}, but {said!r}")
        for text in self.hides:
            if text in said:
                raise Wrong(f"it says {text!r}: {said!r}")
        left = {path.name: path.read_text() for path in self.new.iterdir()}
        wanted = {name: "".join(f"{line}\n" for line in lines) for name, lines in self.files.items()}
        if left.keys() != wanted.keys() or any(not same(text, wanted[name], {}) for name, text in left.items()):
            raise Wrong(f"the files are\n{left}\nnot\n{wanted}")


def play(program, path):
    """Plays the talk of a file."""
    Talk(program, path.read_text().splitlines()).play()


def main():
    parser = words_of(__doc__)
    parser.add_argument("--program", metavar="WORDS", default=str(PROGRAM), help="the program to try, with its first words")
    parser.add_argument("talks", metavar="TALK", nargs="*", help="names of talks, all where there is none")
    asked = parser.parse_args()
    program = asked.program.split()
    need(parser, program[0])
    talks = {path.stem: partial(play, program, path) for path in sorted((HERE / "work").glob("*.txt"))}
    return try_rows(pick(parser, talks, asked.talks).items(), asked)


if __name__ == "__main__":
    sys.exit(main())
