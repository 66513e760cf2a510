"""Reads the clauses of contracts from files of code, and what files of specs/ and proofs/ declare."""
import re

OWNER = re.compile(r"^(?:pub(?:\(\w+\))? )?(?:impl|trait|struct|enum)\b(.*)")
FUNCTION = re.compile(r"^\s*(?:pub(?:\(\w+\))? )?(?:final )?(?:const )?fn (\w+)")
CLAUSE = re.compile(r"^\s*(requires|ensures)\b\s*(\w*)\s*\{")
GHOST = re.compile(r"^\s*(?:pub )?(ghost) (?!use\b)(\w+)\s*[=:]\s*\{")
DECLARED = re.compile(r"^(?:(?:abbrev|pub|data|record) )*([^\s:.(]+)")
NO_ITEM = ("use ", "mod ", "pub mod ", "--")


def up_to_its_end(text, begin):
    """The text from the first brace at or behind a place to the brace that closes it."""
    depth = 0
    for place in range(text.index("{", begin), len(text)):
        depth += {"{": 1, "}": -1}.get(text[place], 0)
        if depth == 0:
            return text[begin : place + 1]
    return text[begin:]


def clauses_of(text):
    """The clauses of a file of code, by the name of each."""
    found = {}
    owner, function, at = "", "", 0
    for line in text.splitlines(keepends=True):
        begin, at = at, at + len(line)
        if line.lstrip().startswith("//"):
            continue
        if header := OWNER.match(line):
            owner, function = header.group(1).split("{")[0].split(" where")[0].strip(), ""
        elif line.startswith("}"):
            owner, function = "", ""
        if name := FUNCTION.match(line):
            function = name.group(1)
        clause = CLAUSE.match(line) or GHOST.match(line)
        if clause:
            of = function if clause.group(1) != "ghost" else ""
            key = " ".join(word for word in (owner, of, *clause.groups()) if word)
            while key in found:
                key += " again"
            found[key] = " ".join(up_to_its_end(text, begin).split())
    return found


def declared_in(text):
    """What a file of specs/ or proofs/ declares, by the name of each."""
    found = {}
    name, modules, inside = None, 0, False
    for line in text.splitlines():
        line = line.split(" -- ")[0]
        if line and not line[0].isspace():
            inside = line.startswith("module ")
        elif inside and line.startswith("  "):
            line = line[2:]
        if line and not line[0].isspace():
            if line.startswith(NO_ITEM):
                name = None
            elif line.startswith("module "):
                modules += 1
                name = f"what module {modules} is about"
            elif not line.startswith(("unfolding ", "}", ")")):
                name = DECLARED.match(line).group(1)
        line = re.sub(r"^( *(?:abbrev |data |record )*)pub ", r"\1", line)
        if name and line.strip() and not line.lstrip().startswith("--"):
            found[name] = (found.get(name, "") + " " + " ".join(line.split())).strip()
    return found
