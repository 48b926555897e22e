"""The kit: its own library for crates, as rt uses it, and the libraries below the crates that are
tried."""
import importlib.machinery
import importlib.util
import os
import re
import subprocess
import sys


def load_rtlib():
    """Returns the kit's own library for crates and its prover's words."""
    said = subprocess.run(
        ["rt", "doc"], stdout=subprocess.PIPE, text=True, check=True
    ).stdout.strip()
    path = f"{os.path.dirname(said)}/bin/rtlib.py"
    loader = importlib.machinery.SourceFileLoader("rtlib", path)
    spec = importlib.util.spec_from_loader("rtlib", loader)
    made = importlib.util.module_from_spec(spec)
    sys.modules["rtlib"] = made
    loader.exec_module(made)
    return made


def files_of(crate, part):
    """Returns the files of a crate's edits in the folder must-fail or wrong-bodies."""
    folder = f"{crate.folder}/{part}"
    return (
        [f"{folder}/{it}" for it in sorted(os.listdir(folder)) if it.endswith(".edit")]
        if os.path.isdir(folder)
        else []
    )


def newest(crate):
    """Returns when a source of the crate was last changed."""
    times = [0.0]
    for part in ("src", "specs", "proofs"):
        for at, _, names in os.walk(f"{crate.folder}/{part}"):
            times += [os.path.getmtime(f"{at}/{it}") for it in names]
    return max(times)


def build_below(crates, is_proved):
    """Builds what is lacking of the libraries below these crates, and returns the name of one that
    is not proved, or None. The output of rt ci has no stamp: it is used if it is newer than its
    sources."""
    built = {}
    for crate in crates:
        for dep in crate.below():
            if dep.name in built:
                continue
            below = [built[it.name] for it in dep.below()]
            made = os.path.getmtime(dep.rlib) if os.path.isdir(dep.rlib) else 0.0
            is_stamped = os.path.isfile(f"{os.path.dirname(dep.rlib)}/stamp")
            if not (is_proved and made and not is_stamped and made > max([newest(dep), *below])):
                if dep.build_rlib(["--jobs", "1"], anew=False):
                    return dep.name
                made = os.path.getmtime(dep.rlib)
            built[dep.name] = made
    return None


def lanes():
    """Returns how many crates are tried side by side, as processors and memory allow."""
    with open("/proc/meminfo", encoding="ascii") as it:
        free = int(re.search(r"MemAvailable:\s+(\d+)", it.read())[1]) / 1_000_000
    return max(1, min(len(os.sched_getaffinity(0)), int(free / 3)))
