"""Changes each definition of the plain model that a call cites, on a copy, and expects a worked case to fail: so the cases tell the definitions from
wrong ones.

    python3 tests/definitions/wrong.py          tries what wrong.txt lists, and says which definitions it lists fewer than two wrong meanings for

In wrong.txt a definition's name is followed by wrong meanings of it: a line that stands once in its file after `- `, the lines that stand in its place
after `+ ` (so for each line that is changed), and a row that tells the two apart; or, where the two come to the same, `passes:` and the reason. A row
that can't be evaluated tells nothing apart."""

import multiprocessing
import os
import sys

import evaluate

HERE = os.path.dirname(os.path.abspath(__file__))
SPECS = os.path.join(HERE, "../../crates/model/specs")
# what the contracts of the public calls cite of the model. That a number of the code is this enum or that limit (Numbers, Answers, limits_of) no case sees,
# since the cases are calls of the model: there the contracts are read
ROOTS = [("Pools", "step"), ("Pools", "answers"), ("Pools", "after"), ("Clearing", "clear_map"), ("Converting", "convert"), ("Model", "plan"), ("Call", "told_as")]


def cited(model):
    """The definitions that the roots name, and those that these name, and so on."""

    def names(it):
        if isinstance(it, tuple) and it[0] == "name":
            yield it[1].replace("«", "").replace("»", "")
        elif isinstance(it, (tuple, list)):
            for part in it:
                yield from names(part)

    found, todo = set(), list(ROOTS)
    while todo:
        folder, name = todo.pop()
        module = model.modules[folder]
        if (folder, name) in found or not module.defined.get(name):
            continue
        found.add((folder, name))
        for word in names([body for _, body in module.defined[name]]):
            head, *rest = word.split(".")
            if rest and head in module.folders:
                todo.append((module.folders[head], rest[0]))
            elif head in module.defined:
                todo.append((folder, head))
            elif head in module.imports and ".model." in module.imports[head][0] and module.imports[head][1] in model.modules:
                todo.append(module.imports[head][1:])
    return found


def listed(path):
    """The wrong meanings: definition, old and new text of each change, and the row or the reason."""
    with open(path, encoding="utf-8") as f:
        lines = [line.rstrip("\n") for line in f]
    name, changes = None, []
    for at, line in enumerate(lines, 1):
        if not line or line.startswith("#"):
            continue
        if line.startswith("- "):
            changes.append((line[2:], []))
        elif line.startswith("+ "):
            changes[-1][1].append(line[2:])
        elif line.startswith("  "):
            yield at, name, tuple((old, "\n".join(new)) for old, new in changes), line.strip()
            changes = []
        else:
            name = tuple(line.split("."))


def tried(wrong):
    """What is amiss with a wrong meaning, if anything."""
    at, (folder, name), changes, row = wrong
    passes = row.startswith("passes:")

    def run():
        model = evaluate.Model(SPECS, (folder + ".antt", changes))
        rows = [it for it in evaluate.cases(model) if passes or it[0] == row]
        if not rows:
            return f"no row is called {row}"
        told = [(name, why) for name, why in ((it[0], evaluate.judged(it[1])) for it in rows) if why]
        for case, why in told:
            if why.startswith("can't be evaluated"):
                return f"{case}: {why}"
        failed = [name for name, _ in told]
        if passes and failed:
            return f"{failed[0]} does not hold, though the list says that every row does"
        if not passes and not failed:
            return f"{row} holds, though {folder}.{name} says something else"
        return None

    try:
        return at, evaluate.deep(run)
    except SystemExit as why:
        return at, str(why)


def main():
    evaluate.arities(SPECS)
    right = evaluate.Model(SPECS)
    todo = list(listed(os.path.join(HERE, "wrong.txt")))
    bad, passed = [], 0
    seen = set()
    for at, (folder, name), changes, _ in todo:
        if (folder, name) not in cited(right):
            bad.append(f"line {at}: {folder}.{name} is no definition that a call cites")
        elif not any(old.startswith((name + " ", " ")) for old, _ in changes):
            bad.append(f"line {at}: no line is one of {folder}.{name}")
        if (folder, changes) in seen or any(old == new for old, new in changes):
            bad.append(f"line {at}: it stands here twice, or changes nothing")
        seen.add((folder, changes))
    with multiprocessing.Pool() as pool:
        for at, why in pool.imap_unordered(tried, todo, chunksize=4):
            passed += why is None
            if why:
                bad.append(f"line {at}: {why}")
    for folder, name in sorted(cited(right)):
        number = sum(1 for it in todo if it[1] == (folder, name) and not it[3].startswith("passes:"))
        passes = any(it[1] == (folder, name) and it[3].startswith("passes:") for it in todo)
        if number < 2 and not passes:
            bad.append(f"{folder}.{name} has {number} wrong meanings, and no reason why not two")
    for line in bad:
        print(line)
    print(f"{len(todo)} wrong meanings of {len(cited(right))} definitions")
    print(f"{passed} passed, {len(bad)} failed")
    return not bad


if __name__ == "__main__":
    sys.exit(0 if main() else 1)
