"""Checks the grammars of `docs/FORMATS.md` against the program that reads traces and logs.

The grammars have to accept each trace and each log of `examples/`. Calls, traces and logs that
are made by a grammar have to be read by the program, and the same with one character changed has
to be read exactly if the grammar accepts it. It is read unless the program reports one of the faults
1 to 5 of a trace, or fault 1 of a log. After fault 7 of a trace, no call has been looked at. Each
name of a grammar is defined once and used.
"""
import os
import random
import re

from parts.builds import Builds, words_of
from parts.frame import Fault, outcome, temporary, text_of, write
from parts.repository import blocks, files

# (it asks a built program, and is a part of `scripts/test program`)
IS_ALONE = False
TOKEN = re.compile(r"'[^']+'|\?[^?]+\?|[a-z0-9]+|[][{}()=|,;*]")
STARTS = ("trace", "log", "verdict", "summary")
HEAD = '{"page_first":4096,"page_max":1073741824,"min_pages":2,"retention":9,"low_water":[5,0]'
# How many texts are made of each grammar, how often each is changed, and by which characters.
MADE, CHANGED = 60, 2
OTHERS = '"[](){}:,.0123456789abcdefABCDEFgurn-x'
UNSEEN = "trace refused: fault 7\n"
SHAPE = re.compile(r"trace refused: fault [1-5]\b|log refused: fault 1\b")
NUMBER = re.compile(r"0|[1-9][0-9]*")
# The rules in words: as a pattern, and some texts of it.
WORDS = {
    "one of 0 to 9, a to f and A to F": ("[0-9a-fA-F]", "0123456789abcdefABCDEF"),
    "one of 0 to 9 and a to f": ("[0-9a-f]", "0123456789abcdef"),
    "a line feed": ("\n", "\n"),
    "urn:uuid: in upper or lower case": ("(?i:urn:uuid:)", ["urn:uuid:", "URN:UUID:", "Urn:uuId:"]),
}

class Grammar:
    """The rules of the EBNF blocks of a document, each as a node: its kind and its parts."""

    def __init__(self, cases, text):
        self.rules, self.used = {}, set(STARTS)
        for block in cases.looked_at(blocks(text, "ebnf"), "blocks of grammar"):
            self.tokens = TOKEN.findall(block)
            while self.tokens:
                name = self.take()
                cases.expect(f"{name} is defined twice", name not in self.rules)
                cases.expect(f"there is no = behind {name}", self.take(), "=")
                self.rules[name] = self.choice()
                cases.expect(f"there is no ; behind {name}", self.take(), ";")
        cases.expect(f"not defined, or not used: {self.used ^ set(self.rules)}", self.used == set(self.rules))

    def take(self):
        return self.tokens.pop(0) if self.tokens else ""

    def choice(self):
        parts = [self.sequence()]
        while self.tokens[:1] == ["|"]:
            self.take()
            parts.append(self.sequence())
        return ("choice", parts)

    def sequence(self):
        parts = [self.part()]
        while self.tokens[:1] == [","]:
            self.take()
            parts.append(self.part())
        return ("sequence", parts)

    def part(self):
        token = self.take()
        if token[:1] == "'":
            return ("text", token[1:-1])
        if token[:1] == "?":
            return ("words", " ".join(token[1:-1].split()))
        if token.isdigit():
            self.take()
            return ("sequence", [self.part()] * int(token))
        if token in ("[", "{", "("):
            inner = self.choice()
            self.take()
            return ({"[": "option", "{": "many", "(": "choice"}[token], [inner])
        self.used.add(token)
        return ("name", token)

    def ends(self, node, text, at):
        """Returns where what begins at a place may end."""
        kind, of = node
        if kind == "text":
            return {at + len(of)} if text.startswith(of, at) else set()
        if kind == "words" and of in WORDS:
            found = re.compile(WORDS[of][0]).match(text, at)
            return {found.end()} if found else set()
        if kind == "words":
            found = NUMBER.match(text, at)
            return {found.end()} if found and int(found[0]) < limit(of) else set()
        if kind == "name":
            return self.ends(self.rules[of], text, at)
        if kind == "choice":
            return {end for part in of for end in self.ends(part, text, at)}
        if kind == "option":
            return {at} | self.ends(of[0], text, at)
        found, new = {at}, {at}
        if kind == "sequence":
            for part in of:
                found = {end for it in found for end in self.ends(part, text, it)}
            return found
        while new:
            new = {end for it in new for end in self.ends(of[0], text, it)} - found
            found |= new
        return found

    def accepts(self, name, text):
        return len(text) in self.ends(("name", name), text, 0)

    def made(self, node, chance):
        """Returns a text of a node."""
        kind, of = node
        if kind == "text":
            return of
        if kind == "words":
            return chance.choice(WORDS[of][1]) if of in WORDS else str(some_below(limit(of), chance))
        if kind == "name":
            return self.made(self.rules[of], chance)
        if kind == "choice":
            return self.made(chance.choice(of), chance)
        if kind == "sequence":
            return "".join(self.made(part, chance) for part in of)
        most = 1 if kind == "option" else 3
        return "".join(self.made(of[0], chance) for _ in range(chance.randint(0, most)))


def limit(words):
    return 2 ** int(re.fullmatch(r"a number below 2\^(\d+)", words)[1])


def some_below(bound, chance):
    return chance.choice((0, 1, 10, bound - 1, chance.randrange(bound)))


def changed(text, chance):
    """Returns a text with a character more, fewer, or another one."""
    at = chance.randrange(len(text))
    return text[:at] + chance.choice(("", chance.choice(OTHERS))) + text[at + chance.randint(0, 1) :]


class Program:
    """The program, which is asked whether it reads a text."""

    def __init__(self, path, folder):
        self.path, self.folder = path, folder

    def file(self, name, text):
        write(f"{self.folder}/{name}", text)
        return f"{self.folder}/{name}"

    def reads(self, *words):
        """Returns whether the program reads what the words name, or None if it did not look."""
        status, told = outcome("sh", "-c", 'exec "$0" "$@" 2>&1 >/dev/null', self.path, *words)
        if status not in (0, 1, 3):
            raise Fault(f"the program ended with status {status}: {told.strip()}")
        return None if told == UNSEEN else not SHAPE.search(told)

    def reads_trace(self, text):
        return self.reads("replay", self.file("trace", text))

    def reads_call(self, text):
        return self.reads_trace(f'{HEAD},"threads":[[{text}]]}}')

    def reads_log(self, text):
        trace = self.file("no calls", f'{HEAD},"threads":[[]]}}')
        return self.reads("check", trace, self.file("log", text))


def compare(cases, grammar, name, reads, chance):
    """Compares a grammar with what the program reads."""
    for _ in range(MADE):
        text = grammar.made(("name", name), chance)
        cases.expect(f"{name}: its own text is not accepted: {text!r}", grammar.accepts(name, text))
        cases.expect(f"{name}: the program does not read {text!r}", reads(text) in (True, None))
        for _ in range(CHANGED if text else 0):
            other = changed(text, chance)
            read, said = reads(other), grammar.accepts(name, other)
            verb = "reads" if read else "refuses"
            cases.expect(f"{name}: the program {verb} {other!r}", read in (said, None))


def try_grammar(cases, path):
    """Checks the grammars by a program."""
    grammar = Grammar(cases, text_of("docs/FORMATS.md"))
    for name, ending in (("trace", "json"), ("log", "log")):
        for example in cases.looked_at(files(f"examples/*.{ending}"), f"examples of a {name}"):
            text = text_of(example)
            text = text.replace("\n", "") if name == "trace" else text
            cases.expect(f"{os.path.basename(example)} is not accepted", grammar.accepts(name, text))
    with temporary() as folder:
        program, chance = Program(path, folder), random.Random(59)
        compare(cases, grammar, "trace", program.reads_trace, chance)
        compare(cases, grammar, "call", program.reads_call, chance)
        compare(cases, grammar, "log", program.reads_log, chance)


def arguments(parser):
    words_of(parser)


def run(cases, given):
    with temporary() as work:
        try_grammar(cases, Builds(given, work).program())
