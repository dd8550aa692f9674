#!/usr/bin/env python3
"""Brings the repository's own names to today's spelling, once, after the kit's port.py.

usage: python3 tools/respell.py     at the top of the repository

Definitions, lemmas, fields, constructors and parameters of .antt files are in snake case; a dash stays where it joins two
names (as in `nat_abs-*` or `Meets-at`). Clauses say `x.old`, `x.new` and `x.now` where they said `before x` and `after x`.
Functions of src/, exported C names, strings, inputs and outputs keep their names. Names that would fall together are
listed and keep apart. Pages and must-fail edits are turned by the same table.
"""
import glob
import os
import re
import sys

# what ends a name
STOP = r"\s(){}\[\],;.`|@\"«»"
NAME = re.compile(rf"[^{STOP}]+")
KIT = os.environ.get("KIT", os.path.dirname(os.path.dirname(os.path.realpath("/usr/local/bin/rt"))))

# new names that would fall together with others
APART = {
    "all_digits": "all_digits_lem",
    "is_digit": "is_digit_lem",
    "no-field": "no_field_lem",
    "as-left": "as_left_lem",
    "lowest-of": "lowest_of_lem",
    "marks-of": "marks_of_lem",
    "on-way": "on_way_lem",
    "step-up": "step_up_lem",
    "labels-most": "labels_bound",
    "gaps-most": "gaps_bound",
    "distance-most": "distance_bound",
    "wanted-most": "wanted_bound",
    "weight-least": "weight_low",
    "weight-most": "weight_high",
    "number-most": "number_bound",
    "share-most": "share_bound",
    "place-most": "place_bound",
    "whole-most": "whole_bound",
    "apart-read": "apart_read_lem",
    "printed-slack": "printed_slack_lem",
    "sheet-read": "sheet_read_lem",
    "slack-given": "slack_given_lem",
    "slack-record": "slack_record_sample",
    "round-half-up": "round_half_up_lem",
}


def antt_files():
    return sorted(glob.glob("crates/*/specs/**/*.antt", recursive=True) + glob.glob("crates/*/proofs/**/*.antt", recursive=True))


def rt_files():
    return sorted(glob.glob("crates/*/src/**/*.rt", recursive=True))


def read(path):
    with open(path, encoding="utf-8") as f:
        return f.read()


def write(path, text):
    with open(path, "w", encoding="utf-8") as f:
        f.write(text)


def bare(text):
    """The text without its comments."""
    return re.sub(r"(?:^|(?<=\s))--(?=\s|-|$)[^\n]*", "", text, flags=re.M)


DECLARED = re.compile(rf"^\s*(?:(?:abbrev|unfoldable|pub|data|record|module|ruleset|syntax)\s+)*([^{STOP}:=]+)\s*(?:[({{][^\n]*)?:(?:\s|$)", re.M)
GROUP = re.compile(rf"[({{]((?:[^{STOP}:=]+\s+)*[^{STOP}:=]+)\s*:\s")
USES = re.compile(r"^\s*(?:ghost |pub )*use\s+([^\s{;]+?)\.?(?:\{([^}]*)\})?\s*(?: as [^\s;]+)?;?$", re.M)


def declared():
    """The repository's own names: from specs/ and lemma files all, from a function's proof what isn't one of its goals."""
    names = set()
    for path in antt_files():
        text = bare(read(path))
        proof = path.endswith("/Proof.antt")
        for m in DECLARED.finditer(text):
            rest = text[m.end():m.end() + 4]
            line = text[m.start():text.find("\n", m.start() + 1)]
            if proof and ("tie." in line):
                continue
            names.add(m.group(1))
        if not proof:
            for m in GROUP.finditer(text):
                names.update(m.group(1).split())
    return names


def foreign():
    """Names that are the kit's: imported from a path that is no crate's of the repository."""
    crates = {os.path.basename(p) for p in glob.glob("crates/*")}
    names = set()
    for path in antt_files():
        for m in USES.finditer(read(path)):
            parts = m.group(1).split(".")
            if parts[0] == "Rattle" and len(parts) > 1 and parts[1] in crates:
                continue
            for item in (m.group(2) or "").split(","):
                names.update(item.split(" as ")[0].split())
    return names


def snake(word):
    """lowerCamel to snake; a word that begins with a capital is a type or a fact and keeps it."""
    if not word[:1].islower():
        return word
    word = re.sub(r"(?<=[a-z0-9'])([A-Z])(?=[a-z]|$)", lambda m: "_" + m.group(1).lower(), word)
    return re.sub(r"([a-z])([A-Z])(?![a-z])", r"\1_\2", word)


def table():
    own, kit = declared(), foreign()
    turned = {}
    for n in own:
        if n in kit or not re.search(r"[^\W\d_]", n) or "◌" in n:
            continue
        parts = re.split(r"(?<=[\w'*ℤ≼≃≺₀-₉])-(?=[\w'*≢])", n)
        first = parts[0]
        # what is said of a fact, an operator or a function of several words keeps its dash
        joint = "-" if not first[0].islower() or snake(first) != first else "_"
        new = snake(first) + (joint if parts[1:] else "") + "_".join(snake(p) for p in parts[1:])
        if new != n:
            turned[n] = new
    turned.update(APART)
    return turned, own, kit


def turn_names(text, names, quoted=None):
    return NAME.sub(lambda m: names.get(m.group(0), m.group(0)), text)


def turn_antt(text, names):
    out = []
    for line in text.split("\n"):
        m = re.search(r"(?:^|(?<=\s))--(?=\s|-|$)", line)
        code, dash, comment = (line[:m.start()], "--", line[m.end():]) if m else (line, "", "")
        comment = re.sub(r"`([^`]*)`", lambda m: "`" + turn_names(m.group(1), names) + "`", comment)
        out.append(turn_names(code, names) + dash + comment)
    return "\n".join(out)


CLAUSE = re.compile(r"\b(requires|ensures|ghost use|ghost \w+:)")


def clause_spans(text):
    """Where clauses and ghost imports stand in a source file: pairs of positions."""
    spans = []
    for m in re.finditer(r"^[ \t]*ghost use[^;]*;", text, re.M):
        spans.append((m.start(), m.end()))
    for m in re.finditer(r"\b(?:requires|ensures)\*?(?: \w+)? \{", text):
        depth, i = 1, m.end()
        while depth:
            depth += {"{": 1, "}": -1}.get(text[i], 0)
            i += 1
        spans.append((m.start(), i))
    return sorted(spans)


def parameters(text, at):
    """The kinds of the parameters of the function whose clause stands at a position: name to '&' or '&mut'."""
    begin = [m.start() for m in re.finditer(r"\bfn \w+", text[:at])][-1]
    head = text[begin:at]
    kinds = {}
    for m in re.finditer(r"\b(\w+): (&mut |&)", head):
        kinds[m.group(1)] = m.group(2).strip()
    return kinds


def turn_views(clause, kinds):
    def put(m):
        word, name = m.group(1), m.group(2)
        kind = kinds.get(name)
        if kind is None:
            return m.group(0)
        if kind == "&":
            return name + ".now"
        return name + (".old" if word == "before" else ".new")
    clause = re.sub(r"\(\s*(before|after) (\w+)\s*\)", put, clause)
    return re.sub(r"(?<![\w.])(before|after) (\w+)(?![\w.])", put, clause)


VIEWS = "Rattle.ground.specs.Views.{"


def without_views(part):
    """An import without `before` and `after`, or nothing."""
    if VIEWS not in part:
        return part
    head, items = part.split(VIEWS)
    items = [i.strip() for i in items.rstrip("};").split(",")]
    left = [i for i in items if i not in ("before", "after")]
    return head + VIEWS + ", ".join(left) + "};" if left else ""


def turn_rt(text, names):
    out, at = [], 0
    for start, end in clause_spans(text):
        out.append(turn_comments(text[at:start], names))
        part = text[start:end]
        if part.lstrip().startswith("ghost use"):
            part = without_views(part)
        else:
            part = turn_views(part, parameters(text, start))
        out.append(turn_names(part, names))
        # an import that is gone takes its line along
        at = end + 1 if not part else end
    out.append(turn_comments(text[at:], names))
    return "".join(out)


def turn_comments(text, names):
    return re.sub(r"//[^\n]*", lambda m: re.sub(r"`([^`\n]*)`", lambda q: "`" + turn_names(q.group(1), names) + "`", m.group(0)), text)


def turn_page(text, names):
    return re.sub(r"`([^`\n]*)`", lambda m: "`" + turn_names(m.group(1), names) + "`", text)


def clashes(names, own, kit):
    by = {}
    for old, new in names.items():
        by.setdefault(new, set()).add(old)
    functions = set()
    for path in rt_files():
        functions.update(re.findall(r"\bfn (\w+)", read(path)))
    for new, olds in sorted(by.items()):
        also = [w for w, s in (("own", own - set(names)), ("kit", kit), ("fn", functions)) if new in s]
        if len(olds) > 1 or "own" in also or "kit" in also:
            print("together:", new, sorted(olds), *also)
        elif also:
            print("as a function:", new, sorted(olds))


def main():
    names, own, kit = table()
    if sys.argv[1:] == ["--table"]:
        for old in sorted(names):
            print(old, names[old])
        clashes(names, own, kit)
        return
    for path in antt_files():
        write(path, turn_antt(read(path), names))
    for path in rt_files():
        write(path, turn_rt(read(path), names))
    for path in glob.glob("crates/*/must-fail/*.edit"):
        write(path, turn_names(read(path), names))
    for path in ["README.md", *glob.glob("docs/*.md"), *glob.glob("crates/*/must-fail/*.md")]:
        write(path, turn_page(read(path), names))


main()
