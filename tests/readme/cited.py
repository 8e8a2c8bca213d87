#!/usr/bin/env python3
"""Every file and every name that README.md and the pages of docs/ cite as they are is there: paths, `crate::module::name` and `File.lemma`.

The notes on tickets and the pages on the two rewritings (PORT.md, DESIGN-PASS.md) speak of their own time. The last line is 'N passed, M failed'.
"""
import re
import sys
from pathlib import Path

TOP = Path(__file__).resolve().parents[2]
PAGES = ["README.md"] + [f"docs/{n}.md" for n in "ARCHITECTURE ASSURANCE BENCHMARKS CALLS DECISIONS DIFFERENCES LAWS PROVING USING".split()]
CRATES = sorted(p.name for p in (TOP / "crates").iterdir() if (p / "src").is_dir())
FOLDERS = "abi bench conformance crates docs examples host include tests tools".split()
HERE = re.compile(rf"(?:{'|'.join(FOLDERS + [c + '/(?:src|specs|proofs|must-fail)' for c in CRATES])})(?:/|$)")
GONE = re.compile(r"\w+/(?:src|specs|proofs|must-fail)/")  # of a crate that is not there

modules = {}  # crate -> module -> text
for crate in CRATES:
    src = TOP / "crates" / crate / "src"
    modules[crate] = {p.relative_to(src).with_suffix("").as_posix().replace("/", "::"): p.read_text(encoding="utf-8") for p in src.rglob("*.rt")}
lemmas = {}  # the stem of a file of definitions or lemmas -> texts
for p in TOP.glob("crates/*/*/*.antt"):
    lemmas.setdefault(p.stem, []).append(p.read_text(encoding="utf-8"))


def path_wrong(path, page):
    """Whether a path is none of the repository's: from the top, from crates/, or from the page's own folder."""
    if "NAME" in path or "*" in path or "…" in path:
        return False
    return not any((base / path).exists() for base in (TOP, TOP / "crates", (TOP / page).parent))


def name_wrong(crate, module, item):
    """Whether crate::module::item, or crate::item, names nothing."""
    texts = modules[crate]
    if module in texts:
        return bool(item) and not re.search(rf"\b{item}\b", texts[module])
    root = texts.get("lib", texts.get("main", ""))
    return not re.search(rf"\b(?:fn|struct|enum|trait|type|const)\s+{module}\b|\buse [^;]*\b{module}\b", root)


passed, failed = 0, 0
for page in PAGES:
    inside = False
    for number, line in enumerate((TOP / page).read_text(encoding="utf-8").split("\n"), 1):
        if line.startswith("```"):
            inside = not inside
            continue
        if inside:
            continue
        found = []
        spans = re.findall(r"`([^`]+)`", line)
        for target in re.findall(r"\]\(([^)#:]+)(?:#[^)]*)?\)", line):
            found.append((target, path_wrong(target, page)))
        for span in spans:
            for path in re.findall(r"[\w./*+…-]+", span):
                if HERE.match(path) or GONE.match(path):
                    found.append((path, path_wrong(path.rstrip("."), page)))
            for crate, module, item in re.findall(r"(?<![\w:.])([a-z]\w*)::(\w+)(?:::(\w+))?", span):
                if crate in CRATES:
                    found.append((f"{crate}::{module}" + (f"::{item}" if item else ""), name_wrong(crate, module, item)))
            for stem, name in re.findall(r"(?<![\w./])([A-Z]\w+)\.([a-z][\w-]*)", span):
                if stem in lemmas and name != "antt":
                    found.append((f"{stem}.{name}", not any(re.search(rf"(?<![\w-]){re.escape(name)}(?![\w-])", t) for t in lemmas[stem])))
        for what, wrong in found:
            passed += not wrong
            failed += wrong
            if wrong:
                print(f"{page}:{number}: {what} is not there")
print(f"{passed} passed, {failed} failed")
sys.exit(failed > 0)
