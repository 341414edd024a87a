"""The cases of tests/judge/simulator: see there."""

import os
import random
import re
import shutil
import subprocess
import sys

sim, judge, work = sys.argv[1:4]
first, count, altered_each = map(int, sys.argv[4:7])
case = os.path.join(work, "case")
image, before = os.path.join(work, "image"), os.path.join(work, "before")


def run(*words):
    """Returns what a command prints and its status."""
    ended = subprocess.run(words, stdout=subprocess.PIPE, timeout=60)
    return ended.stdout.decode(), ended.returncode


def judged(trace):
    """Returns the program's answer to a trace of the case."""
    path = os.path.join(work, "trace")
    with open(path, "w") as file:
        file.write(trace)
    answer, _ = run(judge, before, f"{case}/requests", f"{case}/faults", path)
    return answer.strip()


def new_image():
    """Makes the case's image and serves its first run; returns whether it is of version 1."""
    with open(f"{case}/image.new") as file:
        words = file.read().split()
    if len(words) != 1:
        return False
    if os.path.exists(image):
        os.remove(image)
    run(sim, "new", image, *words)
    if os.path.exists(f"{case}/before.requests"):
        run(sim, "run", image, f"{case}/before.requests", f"{case}/before.faults")
    shutil.copy(image, before)
    return True


def changed(line, chance):
    """Returns a line with one number, or one digit of its data, changed."""
    places = list(re.finditer(r"\b\d+\b|[0-9a-f]{8,}|(?<=fill )..", line))
    if not places:
        return chance.choice(["cut", "on", "recover", "off ok", "turn e", "flash -"])
    place = chance.choice(places)
    old = place[0]
    if len(old) < 8 and old.isdigit():
        new = str(max(0, int(old) + chance.choice([-1, 1, 1, 2])))
    else:
        k = chance.randrange(len(old))
        new = old[:k] + chance.choice("0123456789abcdef") + old[k + 1 :]
    return line[: place.start()] + new + line[place.end() :]


def altered(lines, chance):
    """Returns the lines with one of them dropped, doubled, exchanged or changed, and what was done."""
    k = chance.randrange(len(lines))
    how = chance.choice(["dropped", "doubled", "exchanged", "changed"])
    if how == "dropped":
        new = lines[:k] + lines[k + 1 :]
    elif how == "doubled":
        new = lines[: k + 1] + lines[k:]
    elif how == "exchanged" and k + 1 < len(lines):
        new = lines[:k] + [lines[k + 1], lines[k]] + lines[k + 2 :]
    else:
        how = "changed"
        new = lines[:k] + [changed(lines[k], chance)] + lines[k + 1 :]
    return new, f"line {k + 1} {how}: {lines[k][:40]}"


def keep(seed, trace, name):
    """Keeps a case for a look."""
    kept = os.path.join(work, f"{name}.{seed}")
    shutil.rmtree(kept, ignore_errors=True)
    shutil.copytree(case, kept)
    shutil.copy(before, f"{kept}/image")
    with open(f"{kept}/trace", "w") as file:
        file.write(trace)


wrong = skipped = tried = passed = 0
listed = open(os.path.join(work, "altered"), "w")
for seed in range(first, first + count):
    chance = random.Random(seed)
    shutil.rmtree(case, ignore_errors=True)
    run(sim, "gen", str(seed), case)
    if not new_image():
        skipped += 1
        continue
    trace, _ = run(sim, "run", image, f"{case}/requests", f"{case}/faults")
    if not trace.startswith("card "):
        skipped += 1
        continue
    answer = judged(trace)
    if answer != "accepted":
        wrong += 1
        print(f"judge: seed {seed}: {answer}")
        if wrong <= 20:
            keep(seed, trace, "refused")
        continue
    lines = trace.splitlines()
    for _ in range(altered_each):
        new, how = altered(lines, chance)
        if new == lines:
            continue
        tried += 1
        answer = judged("".join(f"{line}\n" for line in new))
        if answer == "accepted":
            passed += 1
            listed.write(f"seed {seed}: {how}\n")
listed.close()
print(
    f"judge: {count} cases, {skipped} skipped, {wrong} refused;"
    f" of {tried} altered traces {passed} are accepted"
)
sys.exit(1 if wrong else 0)
