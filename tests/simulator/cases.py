"""Cases that are dense with faults: small images, few requests, and faults at almost every number."""

import os
import random


def settings(chance):
    """Returns the lines of settings."""
    lines = []
    if chance.random() < 0.7:
        lines.append(f"set depth {chance.randint(1, 4)}")
    if chance.random() < 0.7:
        lines.append(chance.choice(["set cache off", f"set cache {chance.randint(1, 4)}"]))
    if chance.random() < 0.3:
        lines.append("set desc 128")
    if chance.random() < 0.4:
        lines.append(f"set coalesce {chance.randint(0, 4)}")
    return lines


def request(chance, sectors):
    """Returns the line of a request; one in twelve reads or writes may end past the last sector."""
    kind = chance.choice(["write"] * 6 + ["read"] * 3 + ["flush", "barrier", "barrier", "status"])
    if kind not in ("read", "write"):
        return kind
    blocks = chance.randint(1, min(3, sectors))
    last = sectors - blocks + (chance.random() < 1 / 12)
    words = [kind, str(chance.randint(0, last)), str(blocks)]
    if kind == "write":
        words.append(chance.choice([f"fill {chance.randrange(256):02x}", f"ramp {chance.randrange(256)}"]))
        words += [word for word in ("forced", "reliable") if chance.random() < 0.25]
    if chance.random() < 0.15:
        words.append("high")
    return " ".join(words)


def rising(chance, first, gap, count):
    """Returns numbers that rise by at most the gap."""
    numbers = []
    for _ in range(count):
        first += chance.randint(1, gap)
        numbers.append(first)
    return numbers


def faults(chance):
    """Returns the lines of a fault text, each kind of them in about every second case."""
    lines = []
    if chance.random() < 0.4:
        lines += [f"ready {chance.choice([0, 1, 2, 3, 5, 0xa, 0xffffffff]):x}" for _ in range(chance.randint(1, 12))]
    if chance.random() < 0.5:
        for n in rising(chance, 0, chance.choice([2, 6, 12]), chance.randint(1, 12)):
            lines.append(f"bus {n} {chance.choice(['lost', 'noresp', 'late', 'late', 'data 1', 'data 2', 'data 3'])}")
    if chance.random() < 0.5:
        often = chance.choice([0.2, 0.5, 1])
        for n in rising(chance, 0, chance.choice([1, 2, 6]), chance.randint(1, 12)):
            lines.append(f"program {n} {'cut' if chance.random() < often else 'fail'} {chance.randrange(256):x}")
    if chance.random() < 0.3:
        lines += [f"fetch {n} fail" for n in rising(chance, 2, chance.choice([2, 8]), chance.randint(1, 5))]
    if chance.random() < 0.4:
        lines += [f"cut {n}" for n in rising(chance, -1, chance.choice([1, 4, 10]), chance.randint(1, 8))]
    if chance.random() < 0.5:
        for _ in range(chance.randint(1, 3)):
            lines.append("turn " + "".join(chance.choices("hecx", [6, 12, 2, 1], k=chance.randint(1, 40))))
    return lines


def write_case(seed, folder):
    """Writes the files of a case."""
    chance = random.Random(seed)
    sectors = chance.choice([1, 2, 4, 8, 12])
    requests = [request(chance, sectors) for _ in range(chance.randint(1, 14))]
    os.makedirs(folder)
    texts = {"image.new": [str(sectors)], "requests": settings(chance) + requests, "faults": faults(chance)}
    for name, lines in texts.items():
        with open(os.path.join(folder, name), "w") as file:
            file.write("".join(f"{line}\n" for line in lines))
