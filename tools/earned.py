#!/usr/bin/env python3
"""Refuses code that makes an error of memory by itself: only the allocator makes one, and all other code passes it on.

Usage: tools/earned.py        (a part of make lint)

It reads the tokens of each .rt file of the product's crates but tql_memory, without comments, texts, clauses and ghost
items. A name of VARIANTS or ERRORS in an expression is a value that this code makes, whatever path or alias is before
it. A use line may rename none of these names or of their enums, and may import no variant of them. A value is earned in
two places: in a function that takes an AllocError or an AllocFailed, and in an arm whose pattern is an error of memory.
Elsewhere it is allowed in the functions of ALLOWED alone, each with its reason. So an answer of E01, or a run that
stops for memory, stems from an allocation that was refused; whether code needed that allocation is not checked. The
status is 1 where a value is made elsewhere, where ALLOWED names what is not there, or where an example of WRONG passes.
"""
import re
import sys
from pathlib import Path

TOP = Path(__file__).resolve().parent.parent
# (file, function and the pattern of the arm if it is in one): how many values it makes, and why
NO_TEXT = "piece at Holding::Nothing|Holding::Dash|Holding::Lost"
ALLOWED = {
    ("tql_splitter/src/pending.rt", NO_TEXT): (1, "Lost is earned; no piece is asked of a text that has not begun"),
    ("tql_main/src/inputs.rt", "end_lack"): (2, "what the program takes before a run was refused"),
    ("tql_main/src/inputs.rt", "answer_source"): (1, "the buffer of a run was refused: its error has no other use"),
}
ERRORS, VARIANTS = {"AllocError", "AllocFailed"}, {"OutOfMemory", "NoMemory", "Lost"}
ENUMS = {"Refusal", "ParseError", "Fault", "Holding", "Piece"}
TOKEN = re.compile(r"""//[^\n]*|"(?:[^"\\]|\\.)*"|'(?:[^'\\\n]|\\.)'|[A-Za-z_]\w*|\d\w*|::|=>|->|\n|[^\s\w]""")
# Each of these must be refused, and none of the next.
WRONG = (
    "impl Refusal { fn lack() -> Refusal { Self::OutOfMemory } }",
    "impl ParseError { fn lack() -> Self { Self::OutOfMemory } }",
    "use tql_value::refusal::Refusal as R; fn lack() -> R { R::OutOfMemory }",
    "use tql_value::refusal::Refusal::{self, OutOfMemory}; fn lack() -> Refusal { OutOfMemory }",
    "use tql_value::refusal::Refusal::*; fn lack() -> Refusal { OutOfMemory }",
    "use tql_run::runner::Fault::*;",
    "use std::alloc::AllocError as Lack;",
    "type Lack = Fault; fn lack() -> Lack { Lack::Memory }",
    "fn put(&mut self) { if self.bytes.len() > 70_000 { self.holding = Holding::Lost; } }",
    "fn piece(&self) -> Piece<'_> { Piece::NoMemory }",
    "fn lack() -> Result<(), AllocError> { Err(std::alloc::AllocError) }",
    "fn lack() { self.lose(0, AllocError); }",
    "fn lack(n: u8) -> Result<u8, Refusal> { match n { 0 => Err(Refusal::OutOfMemory), _ => Ok(n) } }",
    "fn lack(e: Refusal) -> Refusal { match e { Refusal::OutOfMemory | Refusal::Range => Refusal::OutOfMemory } }",
)
RIGHT = (
    "impl From<AllocError> for Fault { fn from(_error: AllocError) -> Fault { Fault::Memory } }",
    "fn refusal(e: ParseError) -> Refusal { match e { ParseError::OutOfMemory => Refusal::OutOfMemory, _ => it } }",
    "fn is_lack(e: &Refusal) -> bool { matches!(e, Refusal::OutOfMemory) }",
    "fn new(memory: Memory) -> Result<Words, AllocError> { if let Err(Refusal::OutOfMemory) = x {} memory.words() }",
    "enum Fault { Read, Memory } enum Holding { Lost }",
)


def tokens(text: str) -> list[tuple[int, str]]:
    """The tokens with their lines, without comments, texts, clauses and ghost items."""
    found, line = [], 1
    for it in TOKEN.findall(text):
        if it == "\n":
            line += 1
        elif not it.startswith(("//", '"', "'")):
            found.append((line, it))
        line += it.count("\n") if it != "\n" else 0
    kept, at = [], 0
    while at < len(found):
        word = found[at][1]
        if word in ("requires", "ensures"):
            while found[at][1] != "{":
                at += 1
            at = closed(found, at)
        elif word == "ghost":
            # An item or a field ends with one of these, a parameter of a clause with its brace.
            while found[at][1] not in (";", ",", "{"):
                at += 1
            at = closed(found, at) if found[at][1] == "{" else at
            at += found[at][1] in (";", ",")
        else:
            kept.append(found[at])
            at += 1
    return kept


def closed(found: list[tuple[int, str]], at: int) -> int:
    """The index after the brace that closes the one at an index."""
    depth = 0
    while True:
        depth += {"{": 1, "}": -1}.get(found[at][1], 0)
        at += 1
        if depth == 0:
            return at


def is_memory(words: list[str], at: int) -> bool:
    """Whether the name at an index is an error of memory; `Memory` is the allocator, unless a type is before it."""
    if words[at] == "Memory":
        return words[at - 1] == "::" and words[at - 2][:1].isupper()
    return words[at] in ERRORS | VARIANTS


def is_type(words: list[str], at: int) -> bool:
    """Whether an AllocError or AllocFailed at an index is a type by what is next to its path."""
    start = at
    while words[start - 1] == "::":
        start -= 2
    return words[at] in ERRORS and (words[start - 1] in ("->", "<", "for") or words[at + 1] in ("<", ">"))


def is_earned(pattern: list[str]) -> bool:
    """Whether a pattern is met by errors of memory alone."""
    padded = ["", "", *pattern, ""]
    ends = [at for at, it in enumerate(padded) if at > 1 and it not in ("::", "") and padded[at + 1] != "::"]
    rest = [at for at in ends if padded[at] not in ("Err", "(", ")", "|")]
    return rest != [] and all(is_memory(padded, at) for at in rest)


class Frame:
    """A bracket that is open: what stands in it, and whether the errors of memory made there are earned."""

    def __init__(self, kind: str, context: str, earned: bool) -> None:
        self.kind, self.context, self.earned = kind, context, earned
        self.outer, self.pattern, self.has_block = earned, [], False

    def step(self, word: str, before: str) -> None:
        """Reads a token that stands in this bracket and in no inner one."""
        if self.kind == "match" and word == "=>":
            self.context, self.earned = "value", self.outer or is_earned(self.pattern)
        elif self.kind == "match" and self.context == "value" and word == ",":
            self.begin_arm()
        elif self.kind in ("match", "matches") and self.context == "pattern" and word == "if":
            self.context = "value"
        elif self.kind == "matches" and word == ",":
            self.context = "pattern"
        elif word == "let":
            self.context = "let"
        elif self.context == "let" and word in ("=", ";"):
            self.context = "value"
        self.has_block = word == "{" and before == "=>"

    def begin_arm(self) -> None:
        self.context, self.earned, self.pattern = "pattern", self.outer, []


class Reader:
    """Reads the tokens of a file, and keeps the lines and functions of the values that are not earned."""

    def __init__(self, text: str) -> None:
        self.found = tokens(text)
        self.words = [it for _, it in self.found] + [";"] * 4
        self.stack, self.waiting, self.made = [Frame("", "value", False)], {}, []
        self.function, self.is_given, self.in_use = "", False, False

    def read(self) -> list[tuple[int, str]]:
        for at, (line, word) in enumerate(self.found):
            self.in_use = word == "use" or self.in_use and word != ";"
            if self.in_use:
                if word in VARIANTS or word in ENUMS | ERRORS and self.words[at + 1] in ("as", "::"):
                    self.made.append((line, "use"))
                continue
            self.stack[-1].step(word, self.words[at - 1])
            self.head(at)
            self.judge(at, line)
            self.bracket(at)
        return self.made

    def head(self, at: int) -> None:
        """Reads a keyword whose bracket is still to come, by the depth of that bracket."""
        word, behind = self.words[at], self.words[at + 1]
        if word == "fn" and behind != "(":
            self.function, self.is_given = behind, False
        if word in ("match", "enum", "struct") or word == "fn" and behind != "(":
            self.waiting["declaration" if word in ("enum", "struct") else word] = len(self.stack)

    def judge(self, at: int, line: int) -> None:
        """Keeps the line of a value that is not earned."""
        word, top = self.words[at], self.stack[-1]
        self.is_given = self.is_given or top.context == "parameters" and word in ERRORS
        if not is_memory(self.words, at) or is_type(self.words, at) or top.context != "value":
            return
        if not self.is_given and not top.earned:
            arms = ["".join(it.pattern) for it in self.stack if it.kind == "match"]
            self.made.append((line, f"{self.function} at {arms[-1]}" if arms else self.function))

    def bracket(self, at: int) -> None:
        """Opens or closes a frame, and keeps the tokens of an arm's pattern."""
        word, stack = self.words[at], self.stack
        arms = [it for it in stack if it.kind == "match"]
        if arms and arms[-1].context == "pattern" and word != ",":
            arms[-1].pattern.append(word)
        if word in ("(", "{", "["):
            stack.append(self.frame(word, at))
        elif word in (")", "}", "]"):
            stack.pop()
            if stack[-1].kind == "match" and stack[-1].has_block and word == "}":
                stack[-1].begin_arm()

    def frame(self, word: str, at: int) -> Frame:
        """The frame of a bracket that opens at an index."""
        top = self.stack[-1]
        if word == "{" and self.waiting.get("match") == len(self.stack):
            del self.waiting["match"]
            return Frame("match", "pattern", top.earned)
        if word == "{" and self.waiting.pop("declaration", None) is not None:
            return Frame("", "declaration", False)
        if word == "(" and self.waiting.pop("fn", None) is not None:
            return Frame("", "parameters", False)
        if word == "(" and self.words[at - 2:at] == ["matches", "!"]:
            return Frame("matches", "value", top.earned)
        return Frame("", top.context, top.earned)


def misjudged() -> list[str]:
    """The examples that are judged wrongly."""
    return [it for it in WRONG if not Reader(it).read()] + [it for it in RIGHT if Reader(it).read()]


def main() -> int:
    said, unmet = [f"misjudged: {it}" for it in misjudged()], {key: count for key, (count, _) in ALLOWED.items()}
    for file in sorted((TOP / "crates").glob("tql*/src/**/*.rt")):
        name = file.relative_to(TOP / "crates").as_posix()
        if name.startswith("tql_memory/"):
            continue
        for line, function in Reader(file.read_text(encoding="utf-8")).read():
            if unmet.get((name, function), 0) == 0:
                said.append(f"{name}:{line}: {function} makes an error of memory")
            else:
                unmet[name, function] -= 1
    said += [f"{name}: {function} is allowed {count} more" for (name, function), count in unmet.items() if count]
    for it in said:
        print(it)
    print(f"errors of memory are made by the allocator alone: {'no' if said else 'yes'}")
    return 1 if said else 0


if __name__ == "__main__":
    sys.exit(main())
