#!/usr/bin/env python3
"""Brings the names of definitions and theorems in the pages to the spelling that they have in crates/ since the move to today's Rattle.

usage: python3 tools/port/pages.py          rewrites the pages in place, once
       python3 tools/port/pages.py --list   prints the table, and each word of the pages outside backticks that stands in it

The table is what the declarations of the .antt files were called at BEFORE, and what those in the same places are called at AFTER: so it
has both what the kit's port.py respelled and what snake.py did. In a page a word between backticks is turned; blocks of code are not.
"""
import difflib
import glob
import io
import os
import re
import subprocess
import sys
import tarfile

sys.path.insert(0, os.path.dirname(os.path.realpath(__file__)))
import snake

ROOT = os.path.dirname(os.path.dirname(os.path.dirname(os.path.realpath(__file__))))
BEFORE, AFTER = "055d7986", "aeeeeedd"
PAGES = ("README.md", "docs/*.md", "docs/landings/*.md", "bench/README.md")
# what is no page, and names a definition now and then in a comment
OTHERS = ("crates.txt", "bench/**/*", "include/*", "examples/**/*", "rust/knobharbor/**/*", "tools/*")
def declarations(commit):
    """Of each .antt file at a commit, the names that it declares."""
    packed = subprocess.run(["git", "archive", commit, "crates"], cwd=ROOT, capture_output=True, check=True).stdout
    with tarfile.open(fileobj=io.BytesIO(packed)) as tar:
        return {m.name: list(snake.declared(tar.extractfile(m).read().decode())) for m in tar if m.name.endswith(".antt")}


def today(name):
    """What AFTER had not turned yet: names in modules with parameters."""
    return name if name[0].isupper() else snake.EXCEPTIONS.get(name, snake.snake(name))


def table():
    before, after = declarations(BEFORE), declarations(AFTER)
    turned = {}
    for path in sorted(before.keys() & after.keys()):
        old, new = before[path], after[path]
        for tag, i, j, k, n in [("replace", 0, len(old), 0, len(new))] if len(old) == len(new) else difflib.SequenceMatcher(None, old, new, autojunk=False).get_opcodes():
            if tag == "replace" and j - i == n - k:
                for was, now in zip(old[i:j], new[k:n]):
                    turned.setdefault(was, {}).setdefault(today(now), []).append(path)
            elif tag == "equal":
                for was in old[i:j]:
                    turned.setdefault(was, {}).setdefault(today(was), []).append(path)
    return {was: names for was, names in turned.items() if set(names) != {was}}


def one(was, names):
    """The name that most files gave it."""
    return max(names, key=lambda now: (len(names[now]), now))


def files(patterns):
    for pattern in patterns:
        for path in sorted(glob.glob(os.path.join(ROOT, pattern), recursive=True)):
            if os.path.isfile(path) and "/target/" not in path and not path.endswith("docs/PORT.md"):
                yield path


def spans(text):
    """The text in parts: those at odd places stand between backticks on one line, outside blocks of code."""
    parts, fenced = [""], False
    for line in text.split("\n"):
        fence = line.startswith("```")
        if fence or fenced or line.startswith("    "):
            parts[-1] += line + "\n"
        else:
            first, *rest = re.split(r"(`[^`\n]+`)", line + "\n")
            parts[-1] += first
            parts += rest
        fenced ^= fence
    parts[-1] = parts[-1][:-1]
    return parts


def main():
    turned = table()
    if sys.argv[1:] == ["--list"]:
        for was, names in sorted(turned.items()):
            print(was, *(names if len(names) > 1 else names.keys()), *([sorted(p for ps in names.values() for p in ps)[:4]] if len(names) > 1 else []))
        for path in files(PAGES + OTHERS):
            with open(path, encoding="utf-8", errors="replace") as f:
                text = f.read()
            kept = "".join(spans(text)[::2]) if path.endswith(".md") else text
            for word in sorted(set(snake.WORD.findall(kept)) & turned.keys()):
                print("outside:", os.path.relpath(path, ROOT), word, one(word, turned[word]))
        return
    for path in files(PAGES):
        with open(path, encoding="utf-8") as f:
            text = f.read()
        new = "".join(snake.turn(part, {was: one(was, names) for was, names in turned.items()}) if i % 2 else part for i, part in enumerate(spans(text)))
        if new != text:
            with open(path, "w", encoding="utf-8") as f:
                f.write(new)


if __name__ == "__main__":
    main()
