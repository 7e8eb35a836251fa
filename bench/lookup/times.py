#!/usr/bin/env python3
"""Times the lookup by halving beside the walk that it replaced, in one run: the two functions alone, out of the two archives' modules,
and a drag and fetch with either archive, process by process in turn. Prints medians as a table.
usage: times.py OUT BEFORE [ROUNDS]     BEFORE is the folder of the archive of T-09, as tools/archive names it in a tree of that commit"""
import os, re, shutil, statistics, subprocess, sys

HERE = os.path.dirname(os.path.realpath(__file__))
ROOT = os.path.dirname(os.path.dirname(HERE))
sys.path.insert(0, f"{ROOT}/tools")
from kit import MACHINE, fail, kit

CLANG = f"{kit()}/toolchain/bin/clang"
TRIPLE = f"{MACHINE}-unknown-linux-gnu"


def run(words):
    done = subprocess.run(words, text=True, capture_output=True)
    return done.stdout if done.returncode == 0 else fail(f"{' '.join(words[:3])} ..:\n{done.stdout[-2000:]}{done.stderr[-2000:]}")


def module(folder):
    """The module that an archive was compiled from, which tools/cross keeps beside its folder."""
    for path in (f"{folder}/knobharbor.ll", f"{os.path.dirname(folder)}/knobharbor.ll"):
        if os.path.exists(path):
            with open(path) as f:
                return f.read()
    fail(f"there is no knobharbor.ll in {folder} or above it")


def alone(folder, function, name, out):
    """One function of an archive's module as an object: the rest is made internal, so that nothing of it is kept."""
    text = module(folder)
    found = re.search(rf'^define [^\n]*@"{function}"\(', text, re.M)
    if not found:
        fail(f"the module of {folder} has no {function}")
    text = re.sub(r"^define (?:internal |private )?(?:dso_local )?", "define internal ", text, flags=re.M)
    text = re.sub(rf'^define internal ([^\n]*)@"{function}"\(', rf"define \1@{name}(", text, count=1, flags=re.M)
    text = text.replace(f'@"{function}"', f"@{name}")
    text = re.sub(r"^target (?:datalayout|triple) = .*\n", "", text, flags=re.M)
    text = re.sub(r'"target-cpu"="[^"]*"', "", text)
    text = re.sub(r' ?"(?:probe-stack|stack-probe-size)"="[^"]*"', "", text)
    with open(f"{out}/{name}.ll", "w") as f:
        f.write(text)
    run([CLANG, f"--target={TRIPLE}", "--no-default-config", "-O3", "-ffp-contract=off", "-Wno-override-module", "-c", "-x", "ir", f"{out}/{name}.ll", "-o", f"{out}/{name}.o"])
    return f"{out}/{name}.o"


def drag(folder, name, out):
    """The program over the Rust crate and one archive."""
    own = f"{out}/{name}"
    os.makedirs(own, exist_ok=True)
    run(["rustc", "--edition", "2021", "--crate-type", "rlib", "--crate-name", "knobharbor", "-A", "unknown_lints", "-A", "unexpected_cfgs", "--cfg", 'feature="alloc"', "-O",
         "--out-dir", own, "-L", folder, "-l", "static=knobharbor", f"{ROOT}/rust/knobharbor/src/lib.rs"])
    run(["rustc", "--edition", "2021", "-O", "-o", f"{own}/drag", "--extern", f"knobharbor={own}/libknobharbor.rlib", f"{HERE}/drag.rs"])
    return f"{own}/drag"


def instructions(program, n):
    """Instructions of one drag and fetch: what 600 drags have more than 120."""
    def count(turns):
        said = subprocess.run(["valgrind", "--tool=callgrind", "--callgrind-out-file=/dev/null", program, n, str(turns)], text=True, capture_output=True)
        return int(re.search(r"Collected : (\d+)", said.stderr).group(1))

    return (count(600) - count(120)) / 480


def medians(samples):
    return {key: statistics.median(xs) for key, xs in samples.items()}


def main():
    out, before = sys.argv[1], os.path.abspath(sys.argv[2])
    rounds = int(sys.argv[3]) if len(sys.argv) > 3 else 31
    os.makedirs(out, exist_ok=True)
    after = os.path.dirname(run([f"{ROOT}/tools/archive"]).strip())
    drags = {"walk": drag(before, "before", out), "halving": drag(after, "after", out)}
    objects = [alone(before, "sparse_test::asking::word_from", "lookup_by_walk", out), alone(after, "sparse::lookup::look_up", "lookup_by_halving", out)]
    run(["rustc", "--edition", "2021", "-O", "-o", f"{out}/alone", *[w for o in objects for w in ("-C", f"link-arg={o}")], f"{HERE}/alone.rs"])
    lookups, whole = {}, {}
    for _ in range(rounds):
        for line in run([f"{out}/alone"]).splitlines():
            n, there, walk, halving = line.split()
            lookups.setdefault((n, there, "walk"), []).append(float(walk))
            lookups.setdefault((n, there, "halving"), []).append(float(halving))
        for which, program in drags.items():
            for line in run([program]).splitlines():
                n, ns = line.split()
                whole.setdefault((n, which), []).append(float(ns))
    lookups, whole = medians(lookups), medians(whole)
    print("| variables | a number that is there: walk, ns | halving, ns | one that is not: walk, ns | halving, ns | a drag and fetch: walk, us | halving, us | its instructions: walk | halving |")
    print("|---|---|---|---|---|---|---|---|---|")
    for n in ("6", "20", "32"):
        cells = [f"{lookups[n, t, w]:.1f}" for t in ("there", "not") for w in ("walk", "halving")]
        cells += [f"{whole[n, w] / 1000:.3f}" for w in drags]
        cells += [f"{instructions(program, n):,.0f}" for program in drags.values()] if shutil.which("valgrind") else ["", ""]
        print(f"| {n} | {' | '.join(cells)} |")


main()
