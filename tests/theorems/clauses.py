"""Whether each theorem is held by a contract: a statement that no function's contract names may stay unproved.

    python3 tests/theorems/clauses.py FOLDER CRATE      reads what `rt check --generated FOLDER` wrote of the crate

A statement is a definition of specs/ without arguments that is a type, however it is marked; where such stand, no record without arguments may, which would
be one in another form. The contracts are read as the check has them, in which a clause is the module and the name of what it says: so neither a comment
nor a name that means something else is taken for a clause. Prints what is wrong, a line each."""

import os
import re
import shutil
import sys
import tempfile

STATEMENT = re.compile(r"(?m)^(?:abbrev |unfoldable )?(?:pub )?(\S+) :\s+Type(?: 0)?\s*$")
RECORD = re.compile(r"(?m)^(?:pub )?record (\S+) :\s+Type(?: 0)? where")
CLAUSE = re.compile(r"(?m)^  abbrev (requires|ensures)-(\S+)-text : .*\n  \1-\2-text = (.*(?:\n {5,}.*)*)$")


def read(path):
    with open(path, encoding="utf-8") as f:
        return f.read()


def files(folder):
    for top, _, names in os.walk(folder):
        yield from (os.path.join(top, name) for name in sorted(names) if name.endswith(".antt"))


def statements(specs):
    """Each statement, as a clause names it: its module and its name."""
    contracts = os.path.join(specs, "contracts")
    for path in files(specs):
        if path.startswith(contracts):
            continue
        module = os.path.relpath(path, specs)[: -len(".antt")].replace(os.sep, ".")
        text = re.sub(r"(?m)(^|\s)--.*$", r"\1", read(path))
        found = STATEMENT.findall(text)
        yield from (f"{module}.{name}" for name in found + (RECORD.findall(text) if found else []))


def contracts(specs):
    """Each function's name and the text of its contract."""
    top = os.path.join(specs, "contracts")
    for path in files(top):
        text = read(path)
        if "abbrev pub signature" in text:
            yield os.path.relpath(path, top)[: -len(".antt")].replace(os.sep, "::"), text


def judged(stated, functions):
    """What is wrong, of the statements and of the functions with their contracts."""
    held = {}
    for function, text in functions:
        if "params = List.[];" not in text or "result = Signature.plain λ κs. Builtin.unit;" not in text:
            yield f"{function} is no theorem: it takes or returns something"
        for kind, label, says in CLAUSE.findall(text):
            m = re.fullmatch(r"λ result\. ⌜◌⌝ (\S+)", " ".join(says.split()))
            if kind == "requires":
                yield f"{function} has a premise, {label}"
            elif not m or m[1] not in stated:
                yield f"{function}: the clause {label} is not the bare name of a statement"
            elif m[1].split(".")[-1].lower().replace("-", "_") != label:
                yield f"{function}: the clause {label} is not named as its statement, {m[1]}"
            else:
                held.setdefault(m[1], []).append(function)
    for name in stated:
        if name not in held:
            yield f"no contract holds the statement {name}"
        elif len(held[name]) > 1:
            yield f"the statement {name} is held twice: {', '.join(held[name])}"


FORMS = (
    "abbrev pub Not-held : Type 0\nNot-held = Unit",
    "unfoldable pub Not-held : Type 0\nNot-held = Unit",
    "abbrev Not-held : Type\nNot-held = Unit",
    "pub Not-held :\n    Type 0\nNot-held = Unit",
    "pub record Not-held : Type 0 where\n  pub so : Unit",
)


def tried(specs, stated, functions):
    """The test itself, on what it has to find: what is amiss, if one of these is not found. A statement is added to a copy of a file, in several forms."""
    sound = set(judged(stated, functions))
    module = stated[0].split(".")[0]
    for form in FORMS:
        with tempfile.TemporaryDirectory() as copy:
            shutil.copytree(specs, copy, dirs_exist_ok=True)
            with open(os.path.join(copy, module + ".antt"), "a", encoding="utf-8") as f:
                f.write(f"\n-- a statement that is added\n{form}\n")
            if f"no contract holds the statement {module}.Not-held" not in judged(list(statements(copy)), functions):
                yield f"the test does not see a statement that is added as {form.splitlines()[0]}"
    function, text = functions[0]
    last = CLAUSE.findall(text)[-1]
    other = next(it for it in stated if it not in last[2])
    spoilt = {
        "a clause with a premise": text.replace(last[2], f"λ result. ⌜◌⌝ ((n : ℕ) → {last[2].split()[-1]})"),
        "a clause that names another statement": text.replace(last[2], f"λ result. ⌜◌⌝ {other}"),
        "a function that takes something": text.replace("params = List.[];", "params = x;"),
    }
    for what, changed in spoilt.items():
        if not set(judged(stated, [(function, changed), *functions[1:]])) - sound:
            yield f"the test does not see {what}"


def main():
    folder, crate = sys.argv[1:]
    specs = os.path.join(folder, f"Rattle-{crate}-specs")
    stated, functions = list(statements(specs)), list(contracts(specs))
    wrong = [*judged(stated, functions), *(tried(specs, stated, functions) if functions and stated else ["no function or no statement was found"])]
    for line in wrong:
        print(f"{crate}: {line}")
    print(f"{crate}: {len(stated)} statements, {len(functions)} functions whose contracts they are")
    return not wrong


if __name__ == "__main__":
    sys.exit(0 if main() else 1)
