"""What crates.txt says, and the prover's words over libraries that are built, for the scripts beside this one and for bin/build."""
import os
import shutil
import sys

ROOT = os.path.dirname(os.path.dirname(os.path.realpath(__file__)))
# The toolchain's folder, that of `rt`.
KIT = os.environ.get("RATTLE_KIT") or os.path.dirname(os.path.dirname(os.path.realpath(shutil.which("rt") or "/opt/rattle/bin/rt")))


def crates():
    """The crates by name, lowest first, each with the libraries that it names."""
    with open(f"{ROOT}/crates.txt", encoding="utf-8") as file:
        lines = [line.split(":") for line in file if ":" in line and not line.startswith("#")]
    return {name.strip(): libraries.split() for name, libraries in lines}


def below(crate, libraries):
    found = set()
    for name in libraries.get(crate, []):
        found |= {name} | below(name, libraries)
    return found


def words(copy, crate, folder):
    """What each command of the prover is told of the crate in this folder: its root file, the logic, and each library below it, where a
    copy of the repository or the kit has it."""
    libraries = crates()
    root = next(name for name in ("src/lib.rt", "src/main.rt") if os.path.isfile(f"{folder}/{name}"))
    found = ["--crate-name", crate, root, "--antt-project", f"{KIT}/rattle/logic/antt-project.json", "--logic-built", f"{KIT}/logic_built"]
    found += ["-L", f"dependency={KIT}/rlibs", "--extern", f"std={KIT}/rlibs/std.rlib"]
    for name in sorted(below(crate, libraries)):
        home = f"{copy}/crates/{name}/out/rlib" if name in libraries else f"{KIT}/rlibs"
        if not os.path.isdir(f"{home}/{name}.rlib"):
            sys.exit(f"{copy} has not built {name} yet")
        found += ["-L", f"dependency={home}"] if name in libraries else []
        found += ["--extern", f"{name}={home}/{name}.rlib"] if name in libraries[crate] else []
    return found


def command(copy, crate, folder, kept):
    """The command that checks the crate in this folder; what was checked is kept for the next call."""
    os.makedirs(kept, exist_ok=True)
    return [f"{KIT}/bin/rattle", "check", *words(copy, crate, folder), "--incremental", kept]
