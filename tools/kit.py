"""What the tools share: the repository, the kit, the archive's crate and its build, and this machine."""
import hashlib, os, platform, shutil, subprocess, sys

ROOT = os.path.dirname(os.path.dirname(os.path.realpath(__file__)))
MACHINE = platform.machine()
# the library, and the static library of its C names, which the firmware links as target/staticlib/libCRATE.a
CRATE = "knobharbor"
ARCHIVED = "knobharbor_c"
ARCHIVE = f"{ROOT}/target/staticlib/lib{CRATE}.a"
# as rt is asked for the archive: code that every x86-64 processor runs
BUILD = ["lib", "--cpu", "x86-64"]


def fail(words):
    print(f"{os.path.basename(sys.argv[0])}: {words}", file=sys.stderr)
    sys.exit(1)


def kit():
    rt = shutil.which("rt")
    if not rt:
        fail("the Rattle kit is missing: `rt` is not on the path")
    return os.path.dirname(os.path.dirname(os.path.realpath(rt)))


def reached(crate):
    """The crate and those of the repository that it depends on, each with its line of crates.txt."""
    with open(f"{ROOT}/crates.txt") as f:
        lines = {line.split()[0].rstrip(":"): line.split("#")[0] for line in f if ":" in line.split("#")[0]}
    found, todo = {}, [crate]
    while todo:
        name = todo.pop()
        if name in lines and name not in found:
            found[name] = lines[name]
            todo += lines[name].split(":")[1].split()
    return sorted(found.items())


def sources():
    """A digest of all that the archive is made from, as rt's own stamps are."""
    with open(f"{kit()}/KIT-ID", "rb") as f:
        digest = hashlib.sha256(f.read())
    for name, line in reached(ARCHIVED):
        digest.update(line.encode())
        for part in ("src", "specs", "proofs"):
            for at, folders, files in os.walk(f"{ROOT}/crates/{name}/{part}"):
                folders.sort()
                for file in sorted(files):
                    with open(f"{at}/{file}", "rb") as f:
                        digest.update(f"{at[len(ROOT):]}/{file}".encode() + hashlib.sha256(f.read()).digest())
    return digest.hexdigest()


def is_built():
    """Whether the archive was made from what stands in crates/ now: `rt lib` reads all of its proof each time."""
    if not (os.path.exists(ARCHIVE) and os.path.exists(ARCHIVE + ".made-from")):
        return False
    with open(ARCHIVE + ".made-from") as f:
        return f.read() == sources()


def build():
    """Proves and builds the archive, unless it was made from what stands in crates/ now. What rt says goes to standard error."""
    if is_built():
        return
    at = f"{ROOT}/crates/{ARCHIVED}"
    if subprocess.run([f"{kit()}/bin/rt", *BUILD], cwd=at, stdout=sys.stderr).returncode:
        fail(f"`rt {' '.join(BUILD)}` in crates/{ARCHIVED} did not build the archive; what it said is above")
    os.makedirs(os.path.dirname(ARCHIVE), exist_ok=True)
    shutil.copyfile(f"{at}/out/lib{ARCHIVED}.a", ARCHIVE)
    with open(ARCHIVE + ".made-from", "w") as f:
        f.write(sources())
