"""The cases of tests/simulator/run: see there."""

import collections
import os
import re
import shutil
import subprocess
import sys

from cases import write_case

sim, program, work, kind = sys.argv[1:5]
first, count = map(int, sys.argv[5:7])
case = os.path.join(work, "case")
sides = {"sim": sim, "program": program}
os.environ["CQSIM_NOSYNC"] = "1"

# what a case may have, by a line of one of its texts or of its trace
FEATURES = [
    ("requests", r"^set (depth|cache off|cache|desc|coalesce)"),
    ("requests", r"^(read|write|flush|barrier|status)"),
    ("requests", r"^write .* (forced|reliable|high)"),
    ("requests", r"^read .* (high)"),
    ("faults", r"^(ready|turn|cut|bus \d+ (?:lost|noresp|data|late)|program \d+ (?:fail|cut)|fetch)"),
    ("trace", r"^(cut|left|recover|bus|flash \d|flash -|\d+ fault bus|\d+ fault flash|\d+ refused range|\d+ lost|off \w+|turn)"),
]


def serve(side, requests, faults):
    """Returns what a side prints on its image, and its status."""
    try:
        ended = subprocess.run(
            [sides[side], "run", f"{work}/{side}.img", requests, faults],
            stdout=subprocess.PIPE, stderr=subprocess.DEVNULL, timeout=60,
        )
    except subprocess.TimeoutExpired:
        return b"", "no end"
    return ended.stdout, ended.returncode


def image(side):
    """Returns the bytes of a side's image."""
    with open(f"{work}/{side}.img", "rb") as file:
        return file.read()


def make_case(seed):
    """Makes the texts of a case."""
    shutil.rmtree(case, ignore_errors=True)
    if kind == "dense":
        write_case(seed, case)
    else:
        subprocess.run([sim, kind, str(seed), case], check=True)


def make_images():
    """Makes the case's image for both sides; returns whether it is of version 1."""
    with open(f"{case}/image.new") as file:
        words = file.read().split()
    if len(words) != 1:
        return False
    path = f"{work}/sim.img"
    if os.path.exists(path):
        os.remove(path)
    subprocess.run([sim, "new", path, *words], stdout=subprocess.DEVNULL, check=True)
    shutil.copy(path, f"{work}/program.img")
    return True


def difference(requests, faults):
    """Serves a run on both sides; returns how they differ, and the traces."""
    shutil.copy(f"{work}/sim.img", f"{work}/start.img")
    (wanted, status), (printed, ended) = (serve(side, requests, faults) for side in sides)
    if wanted != printed:
        lines, others = wanted.splitlines(), printed.splitlines()
        k = next((k for k, pair in enumerate(zip(lines, others)) if pair[0] != pair[1]), min(len(lines), len(others)))
        told = [lines[k : k + 1], others[k : k + 1]]
        how = f"line {k + 1} is {told[1]} and not {told[0]}"
    elif status != ended:
        how = f"status {ended} and not {status}"
    elif image("sim") != image("program"):
        how = "the image"
    else:
        how = None
    return how, wanted, printed


def keep(seed, wanted, printed):
    """Keeps a case for a look."""
    kept = os.path.join(work, f"differs.{seed}")
    shutil.rmtree(kept, ignore_errors=True)
    shutil.copytree(case, kept)
    shutil.copy(f"{work}/start.img", f"{kept}/card.img")
    for name, text in (("wanted", wanted), ("printed", printed)):
        with open(f"{kept}/{name}", "wb") as file:
            file.write(text)


def features(trace):
    """Returns what a case has."""
    texts = {"trace": trace.decode()}
    for name in ("requests", "faults"):
        with open(f"{case}/{name}", errors="replace") as file:
            texts[name] = file.read()
    return {
        f"{name}: {re.sub(r' ?[0-9]+ ?', ' N ', found)}"
        for name, pattern in FEATURES
        for found in re.findall(pattern, texts[name], re.M)
    }


seen = collections.Counter()
compared = skipped = wrong = lines = 0
for seed in range(first, first + count):
    make_case(seed)
    if not make_images():
        skipped += 1
        continue
    how = None
    if os.path.exists(f"{case}/before.requests"):
        how, wanted, printed = difference(f"{case}/before.requests", f"{case}/before.faults")
        seen["run before"] += 1
    if how is None:
        how, wanted, printed = difference(f"{case}/requests", f"{case}/faults")
    compared += 1
    lines += wanted.count(b"\n")
    seen.update(features(wanted))
    if how is not None:
        wrong += 1
        print(f"simulator: seed {seed}: {how}", flush=True)
        if wrong <= 20:
            keep(seed, wanted, printed)
    if compared % 500 == 0:
        print(f"simulator: {compared} cases compared, up to seed {seed}", flush=True)
for name, number in sorted(seen.items()):
    print(f"  {number:6} cases with {name}")
print(f"simulator: {compared} cases compared, of {lines} lines; {skipped} skipped, {wrong} differ")
sys.exit(1 if wrong else 0)
