"""Spells the repository's own definitions and lemmas as today's Rattle spells its own: words in snake case.

usage: respell.py FOLDER [--list]

Run once at the top of a checkout, after the toolchain's own script. It collects the names that the crates' specs/ and
proofs/ declare (definitions, lemmas, fields, constructors, names of `let`), and turns each that has a capital or a dash
into snake case, and types with a dash into camel case: in specs/ and proofs/, in the clauses and ghost items of src/, in must-fail edits, and between backticks
in comments and pages. Functions of src/, strings, inputs and outputs keep their names, as do the names that Rattle
makes of a function's goals and those of the library. --list prints the names, and changes nothing. Names that would
fall together in one file stop it.
"""

import collections
import os
import re
import sys

NAME = r"[a-z][A-Za-z0-9_]*(?:-[A-Za-z0-9_]+)*'*"
WORD = re.compile(r"(?<![\w'\-.·≡≤<])" + NAME + r"(?![\w'\-≡≤<])")
FIELD = re.compile(r"(?<=\.)" + NAME + r"(?![\w'\-≡≤<])")
DECLARED = re.compile(r"^(\s*)((?:(?:pub|abbrev|opaque|unfoldable|instance)\s+)*)(" + NAME + r"(?:\s+" + NAME + r")*)\s*:(?:\s|$)", re.M)
ANSWER = re.compile(r"^\s*(?:(?:pub|abbrev)\s+)*(" + NAME + r")\s*:\s*(?:goal|goals|given|need|needs)\.", re.M)
LET = re.compile(r"\blet\s+(" + NAME + r")\s*[:=]")
USE = re.compile(r"^\s*(?:pub\s+)?use\s+([^\s{]+)\.\{([^}]*)\}", re.M)
# A lemma whose name would become that of the definition that it speaks of says so; a definition that would take a
# name of the library's has a name of its own.
APART = {"form-from": "form_from_lem", "number-at": "number_at_lem", "number-from": "number_from_lem", "next-is": "next_is_lem", "leads-else": "leads_else_lem", "cost-in": "cost_in_lem", "gap-in": "gap_in_lem", "first-over": "first_over_lem", "may-advance": "may_advance_lem", "link-numbers": "link_numbers_lem", "prefixLen": "prefix_length"}


def respelled(name):
    """The name in snake case."""
    if name in APART:
        return APART[name]
    name = name.replace("-", "_")
    name = re.sub(r"(?<=[a-z0-9])([A-Z])", lambda m: "_" + m[1].lower(), name)
    return re.sub(r"[A-Z]", lambda m: m[0].lower(), name)


def spelled(name):
    return name == respelled(name)


TYPE = r"[A-Z][A-Za-z0-9]*(?:-[A-Za-z0-9]+)+'*"
DECLARED_TYPE = re.compile(r"^\s*(?:(?:pub|abbrev|opaque|unfoldable|record|data)\s+)*(" + TYPE + r")\s*(?:\(.*\)\s*)?:(?:\s|$)", re.M)
TYPE_WORD = re.compile(r"(?<![\w'\-])" + TYPE + r"(?![\w'\-])")


def camel(name):
    """The name of a type in camel case."""
    return re.sub(r"-([A-Za-z0-9])", lambda m: m[1].upper(), name)


def antt_files(root):
    for folder, dirs, names in os.walk(os.path.join(root, "crates")):
        dirs[:] = sorted(d for d in dirs if d not in ("out", "target"))
        for n in sorted(names):
            if n.endswith(".antt"):
                yield os.path.join(folder, n)


def other_files(root):
    for folder, dirs, names in os.walk(root):
        dirs[:] = sorted(d for d in dirs if d not in ("out", "target", ".git", "tools"))
        for n in sorted(names):
            if n.endswith((".rt", ".edit", ".md")):
                yield os.path.join(folder, n)


def read(path):
    with open(path, encoding="utf-8") as f:
        return f.read()


def bare(text):
    """The text of an antt file without its comments."""
    return re.sub(r"(^|\s)--(\s.*|$)", r"\1", text, flags=re.M)


def own_modules(root):
    with open(os.path.join(root, "crates.txt"), encoding="utf-8") as f:
        return {line.split(":")[0].split()[0] for line in f if ":" in line and not line.startswith("#")}


def foreign(text, own):
    """The names that a file imports from the library, and those that Rattle makes for the file's goals."""
    out = set(ANSWER.findall(text))
    for module, names in USE.findall(text):
        parts = module.split(".")
        made = parts[-1] in ("Goals", "Given", "Needs") or "contracts" in parts
        if made or not (parts[0] == "Rattle" and len(parts) > 1 and parts[1] in own):
            out |= {n.strip().split(" as ")[0] for n in names.split(",")}
    return out


def declared(root):
    """The names that the crates declare, and among them those that stand behind a dot: fields and members."""
    own, names, fields = own_modules(root), set(), set()
    for path in antt_files(root):
        text = bare(read(path))
        skip = foreign(text, own)
        found = {n for m in DECLARED.finditer(text) for n in m[3].split()} - {"pub", "abbrev"}
        found |= set(LET.findall(text))
        found = {n for n in found - skip if not spelled(n)}
        names |= found
        in_record = False
        for line in text.split("\n"):
            if re.match(r"\s*(?:pub\s+)?(?:abbrev\s+)?record\b", line):
                in_record = True
            elif line and not line.startswith(" "):
                in_record = False
            elif in_record and (m := re.match(r"\s+(?:pub\s+)?(" + NAME + r")\s*:", line)) and not spelled(m[1]):
                fields.add(m[1])
    return names, fields


def declared_types(root):
    return {n for path in antt_files(root) for n in DECLARED_TYPE.findall(bare(read(path)))}


def together(names, root):
    """The pairs of names that would fall together in one file."""
    out = []
    for path in antt_files(root):
        seen = collections.defaultdict(set)
        for w in WORD.findall(bare(read(path))):
            seen[respelled(w) if w in names else w].add(w)
        out += [(path, new, sorted(olds)) for new, olds in sorted(seen.items()) if len(olds) > 1]
    return out


def typed(text, types):
    return TYPE_WORD.sub(lambda m: camel(m[0]) if m[0] in types else m[0], text)


def turned(text, names, fields, skip, module_names):
    def word(m):
        return respelled(m[0]) if m[0] in names and m[0] not in skip else m[0]

    def field(m):
        before = text_now[: m.start()]
        owner = re.search(r"([\w'\-]+)\.$", before)
        if m[0] in fields:
            return respelled(m[0])
        if m[0] in names and m[0] not in skip and owner and owner[1] in module_names:
            return respelled(m[0])
        return m[0]

    text_now = WORD.sub(word, text)
    return FIELD.sub(field, text_now)


def split(text, path):
    """The text in parts, each with whether it is code: comments and strings are not."""
    if path.endswith(".antt"):
        parts = re.compile(r'(?:(?<=\s)|^)--(?=\s|$).*|"(?:\\.|[^"\\])*"', re.M)
    else:
        parts = re.compile(r'//.*|b?"(?:\\.|[^"\\])*"')
    at = 0
    for m in parts.finditer(text):
        yield True, text[at : m.start()]
        yield False, m[0]
        at = m.end()
    yield True, text[at:]


def ticked(text, names):
    return re.sub(r"`([^`\n]*)`", lambda m: "`" + WORD.sub(lambda w: respelled(w[0]) if w[0] in names else w[0], m[1]) + "`", text)


def main(argv):
    root = argv[0] if argv else "."
    names, fields = declared(root)
    types = declared_types(root)
    if "--list" in argv:
        print("\n".join([f"{n} {respelled(n)}" for n in sorted(names)] + [f"{n} {camel(n)}" for n in sorted(types)]))
        return 0
    if (clash := together(names, root)) and "--anyway" not in argv:
        for path, new, olds in clash:
            print(f"{path}: {' and '.join(olds)} would both be {new}", file=sys.stderr)
        return 1
    own = own_modules(root)
    module_names = {os.path.basename(p)[:-5] for p in antt_files(root)}
    for path in antt_files(root):
        text = read(path)
        skip = foreign(bare(text), own)
        aliases = set(re.findall(r"\buse\s+\S+\s+as\s+([\w\-]+)", text)) - {"goal", "given", "goals"}
        new = "".join(turned(p, names, fields, skip, module_names | aliases) if code else (ticked(p, names) if p.startswith("--") else p) for code, p in split(text, path))
        new = typed(new, types)
        if new != text:
            with open(path, "w", encoding="utf-8") as f:
                f.write(new)
    for path in other_files(root):
        text = read(path)
        if path.endswith(".md"):
            new = ticked(text, names)
        elif path.endswith(".edit"):
            new = turned(text, names, fields, set(), module_names)
        else:
            new = "".join(turned(p, names, fields, set(), module_names) if code else (ticked(p, names) if p.startswith("//") else p) for code, p in split(text, path))
        new = typed(new, types)
        if new != text:
            with open(path, "w", encoding="utf-8") as f:
                f.write(new)
    return 0


if __name__ == "__main__":
    sys.exit(main(sys.argv[1:]))
