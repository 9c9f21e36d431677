#!/usr/bin/env python3
"""Brings the repository's own names in antt to snake case, in specs/, proofs/, clauses, edits and pages; functions of src/ keep theirs.

usage: python3 tools/respell.py [--list]      at the top, once, right after the port's own script; --list prints the names and writes nothing

Words are in snake case. What is turned: names that a file of specs/ or proofs/ declares, fields and constructors among them. What stays: names of types and modules,
and the names that a check makes for a proof, which have a dash between their parts.
"""
import os
import re
import sys

WORD = r"[^\s(){}\[\],;.@\"«»`|]+"
TOKEN = re.compile(WORD)
DECLARED = re.compile(r"^(\s*)((?:(?:pub|abbrev|unfoldable)\s+)*)(" + WORD + r")((?:\s+" + WORD + r")*)\s+:\s")
# Where two old names would fall together in one scope, the one that is told here gets another name.
APART = {
    "is-number": "value_is_number",
    "is-row": "row_is_row",
    "leaf-line": "leaf_lines",
    "branch-line": "branch_lines",
    "copies-are": "copies_are",
    "is-good": "is_good",
    "few_words": "few_words_lem",
    "look_in": "look_in_lem",
    "rows_told": "rows_told_lem",
    "to-unsigned": "to_unsigned_lem",
    "is-nan": "is_nan_lem",
}


def snake(name):
    name = name.replace("-", "_").replace("′", "'")
    name = re.sub(r"(?<=[a-z0-9'])([A-Z])", lambda m: "_" + m.group(1).lower(), name)
    return name


def old_spelling(name):
    return re.match(r"[a-zα-ωμκ]", name) is not None and (re.search(r"[a-z0-9'][A-Z]", name) or re.search(r"\w-\w", name) or "′" in name)


def comment_of(line, mark):
    at = re.search(r"(^|\s)" + mark, line)
    return (line, "") if not at else (line[: at.start()], line[at.start():])


def files(root):
    for folder, dirs, names in os.walk(os.path.join(root, "crates")):
        dirs[:] = sorted(d for d in dirs if d != "out")
        for name in sorted(names):
            yield os.path.join(folder, name)


def function_folder(path):
    """Whether a file of proofs/ is one of a function's: its names of goals are made by a check."""
    return path.endswith("/Proof.antt")


def declared(text):
    """The names that a file declares, with the type that stands behind each."""
    for line in text.split("\n"):
        code, _ = comment_of(line, "--")
        m = DECLARED.match(code)
        if m and m.group(3) not in ("let", "use", "open", "module"):
            for name in [m.group(3)] + m.group(4).split():
                yield name, code[m.end():]


def imports(text):
    """The names that a file takes from modules of this repository."""
    for m in re.finditer(r"(?:^|\n)\s*(?:pub )?(?:ghost )?use (Rattle[.\w+'-]*)\.\{([^}]*)\}", text):
        yield m.group(1), [w.strip() for w in m.group(2).split(",")]


def main(argv):
    root = os.getcwd()
    crates = set(os.listdir(os.path.join(root, "crates")))
    texts = {p: open(p, encoding="utf-8").read() for p in files(root) if p.endswith((".antt", ".rt", ".edit"))}
    own = {}
    at = {}
    for p, t in texts.items():
        if p.endswith(".antt") and not function_folder(p):
            for name, _ in declared(t):
                at.setdefault(name, set()).add(p)
                if old_spelling(name):
                    own[name] = APART.get(name, snake(name))
            for m in re.finditer(r"\bas (" + WORD + ")", t):
                if old_spelling(m.group(1)) and "-" not in m.group(1):
                    own[m.group(1)] = snake(m.group(1))
    # two names that become one
    back = {}
    for name in at:
        back.setdefault(own.get(name, name), set()).add(name)
    for new, olds in sorted(back.items()):
        if len(olds) > 1 and "--list" in argv:
            print("together:", new, {o: sorted(os.path.relpath(p, root) for p in at[o]) for o in olds})
    for new, olds in back.items():
        for name in olds:
            if len(olds) > 1 and "-" in name and name not in APART:
                own[name] = new + "_lem"
    for name in APART:
        own[name] = APART[name]
    if "--list" in argv:
        for p, t in texts.items():
            code = "\n".join(comment_of(line, "--" if p.endswith(".antt") else "//")[0] for line in t.split("\n"))
            there = set(TOKEN.findall(code))
            for name in there & set(own):
                if own[name] in there and own[name] not in back.get(own[name], ()):
                    print("beside:", os.path.relpath(p, root), name, own[name])
                elif own[name] in there:
                    print("beside, declared:", os.path.relpath(p, root), name, own[name])
        print(len(own), "names")
        return 0
    changed = 0
    for p, t in texts.items():
        local = {}
        if p.endswith(".antt") and function_folder(p):
            taken = set()
            for module, names in imports(t):
                if module.split(".")[1] in crates and not re.search(r"\.(Tie|Goals|Given|Lts|Statement|Met)$", module):
                    taken.update(names)
            local = {n: own[n] for n in taken if n in own}
            for name, type_ in declared(t):
                if old_spelling(name) and not type_.startswith(("tie.", "{M : Type 1}")) and not name.endswith("-spec"):
                    there = set(TOKEN.findall(t))
                    local[name] = snake(name) + ("_lem" if snake(name) in there else "")
            # a camel case name is never one that a check makes
            for name in own:
                if "-" not in name:
                    local[name] = own[name]
        else:
            local = own
        kept = foreign(t, crates)
        new = turn(p, t, {n: to for n, to in local.items() if n not in kept})
        if new != t:
            changed += 1
            with open(p, "w", encoding="utf-8") as f:
                f.write(new)
    for folder, dirs, names in os.walk(root):
        dirs[:] = sorted(d for d in dirs if d not in (".git", "out", "crates"))
        for name in sorted(names):
            p = os.path.join(folder, name)
            if name.endswith(".md"):
                t = open(p, encoding="utf-8").read()
                new = re.sub(r"`[^`\n]+`", lambda m: words(m.group(), own), t)
                if new != t:
                    changed += 1
                    with open(p, "w", encoding="utf-8") as f:
                        f.write(new)
    print(f"respell: {len(own)} names, {changed} files")
    return 0


def foreign(text, crates):
    """The names that a file takes from modules of the kit."""
    found = set()
    for m in re.finditer(r"(?:^|\n)\s*(?:pub )?(?:ghost )?use ([\w.+'-]*)\.\{([^}]*)\}", text):
        parts = m.group(1).split(".")
        if parts[0] != "Rattle" or parts[1] not in crates:
            found.update(w.strip().split(" ")[0] for w in m.group(2).split(","))
    return found


def words(text, names, keep_after_dot=False):
    def one(m):
        w = m.group()
        if w in names and not (keep_after_dot and m.start() and text[m.start() - 1] == "." and "-" in w):
            return names[w]
        return w
    return TOKEN.sub(one, text)


def turn(path, text, names):
    out = []
    mark = "--" if path.endswith(".antt") else ("#" if path.endswith(".edit") else "//")
    in_function = path.endswith(".antt") and function_folder(path)
    for line in text.split("\n"):
        code, comment = comment_of(line, mark)
        comment = re.sub(r"`[^`]+`", lambda m: words(m.group(), names), comment)
        out.append(words(code, names, keep_after_dot=in_function) + comment)
    return "\n".join(out)


if __name__ == "__main__":
    raise SystemExit(main(sys.argv[1:]))
