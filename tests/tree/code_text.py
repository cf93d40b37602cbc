"""Sources as text, in which only code is left: what lists of this folder look at."""
import collections
import re

# What is no code: comments, texts and characters, attributes, clauses of contracts and what is named for them alone.
NO_CODE = re.compile(r"//[^\n]*|b?\"(?:[^\"\\]|\\.)*\"|b?'(?:[^'\\\n]|\\.[^'\n]*)'")
CLAUSE = re.compile(r"\b(?:requires|ensures)\b[^{};]*\{|\bghost\b[^{};]*(\{|;)|#!?(\[)")
PAIRS = {"{": "}", "[": "]"}
HEAD = re.compile(r"\b(?:(impl)\b|(trait)\s+(\w+)|fn\s+(\w+))")

Function = collections.namedtuple("Function", "place crate file owner is_outer name")


def end_of(text, start):
    """The place behind the bracket that closes the one at `start`."""
    opening, closing, depth = text[start], PAIRS[text[start]], 0
    for at in range(start, len(text)):
        depth += (text[at] == opening) - (text[at] == closing)
        if not depth:
            return at + 1
    return len(text)


def blank(text, start, end):
    return text[:start] + re.sub(r"[^\n]", " ", text[start:end]) + text[end:]


def code_of(text):
    """The text with blanks for what is no code, so that lines stay where they are."""
    text = NO_CODE.sub(lambda found: re.sub(r"[^\n]", " ", found.group(0)), text)
    at = 0
    while found := CLAUSE.search(text, at):
        end = found.end() if found.group(1) == ";" else end_of(text, found.end() - 1)
        text, at = blank(text, found.start(), end), found.start()
    return text


def functions_of(crate, file, text):
    """The functions of a file, each with the text of its body."""
    at, owners = 0, []
    while found := HEAD.search(text, at):
        owners = [owner for owner in owners if found.start() < owner[0]]
        opening = re.compile(r"[{;]").search(text, found.end())
        # A default of a parameter's size or type has no `;` in this repository; an array's type has.
        while opening and opening.group() == ";" and text.rfind("[", found.end(), opening.start()) > \
                text.rfind("]", found.end(), opening.start()):
            opening = re.compile(r"[{;]").search(text, opening.end())
        if not opening:
            return
        end = opening.end() if opening.group() == ";" else end_of(text, opening.start())
        if found.group(1):
            head = re.sub(r"<[^<>]*>", "", re.sub(r"<[^<>]*>", "", text[found.end():opening.start()]))
            trait, _, kind = head.partition(" for ")
            kind = re.sub(r"\bwhere\b.*", "", kind or trait, flags=re.S).split("::")[-1].strip(" \n&")
            owners.append((end, kind, trait.split("::")[-1].strip() if " for " in head else ""))
            at = opening.end()
        elif found.group(2):
            owners.append((end, found.group(3), ""))
            at = opening.end()
        else:
            owner = owners[-1] if owners else (0, "", "")
            line = text.count("\n", 0, found.start()) + 1
            yield Function(f"{file}:{line}", crate, file, owner[1], owner[2], found.group(4)), text[found.end():end]
            # A function within another one is a part of it.
            at = end
