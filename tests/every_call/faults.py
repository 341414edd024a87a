"""The cases of tests/every_call/run: see there."""

import collections
import fcntl
import itertools
import os
import re
import shutil
import subprocess
import sys

program, judge, work, sim = sys.argv[1:5]
only = os.environ.get("ONLY", "")
os.environ["CQSIM_NOSYNC"] = "1"
SCRIPT = """\
write 0 2 fill aa
barrier
write 1 2 fill bb reliable
write 0 1 fill cc forced
flush
read 0 4
"""
SETTINGS = {
    "a cache": "",
    "a queue of one": "set depth 1\n",
    "a cache of one line": "set cache 1\n",
    "written through": "set cache off\n",
    "written through, a queue of one": "set cache off\nset depth 1\n",
}
# the sector that an open gate names, plus one, and the byte that its intent page is full of
GATES = {"": None, ", the gate ajar": (3, 0xEE)}
LAST = {0: ["off ok"], 7: ["off fault", "array fault"], 8: ["off dead", "no power"]}
# the bytes of the smallest pipe
PIPE = 4096
seen = collections.Counter()
wrong = []


def path(name):
    """Returns the path of a file of this run."""
    return os.path.join(work, name)


def put(name, text):
    """Writes a file of this run."""
    with open(path(name), "wb") as file:
        file.write(text.encode() if isinstance(text, str) else text)


def image_of(name):
    """Returns the bytes of an image."""
    with open(path(name), "rb") as file:
        return file.read()


def make_image(gate):
    """Makes the image before each run, of eight sectors, zeros but for a gate that is ajar."""
    subprocess.run([program, "new", path("before.img"), "8"], stdout=subprocess.DEVNULL, check=True)
    if gate is not None:
        pages = bytearray(image_of("before.img"))
        pages[512 + 8] = gate[0] + 1
        pages[2 * 512 : 3 * 512] = bytes([gate[1]]) * 512
        put("before.img", pages)


def serve(binary, image, faults):
    """Returns what a run on a copy of the image prints, and its status."""
    shutil.copy(path("before.img"), path(image))
    put("faults", faults)
    words = [binary, "run", path(image), path("requests"), path("faults")]
    ended = subprocess.run(words, stdout=subprocess.PIPE, stderr=subprocess.PIPE, timeout=60)
    return ended.stdout, ended.returncode


def is_image(image):
    """Whether the card opens on the image. The last call that reads it, since an opening finishes its gate."""
    listed = subprocess.run([program, "extcsd", path(image)], stdout=subprocess.PIPE, timeout=60)
    return listed.returncode == 0 and listed.stdout.count(b"\n") == 17


def verdict(trace):
    """Returns what the judge says of a trace."""
    put("trace", trace)
    words = [judge, path("before.img"), path("requests"), path("faults"), path("trace")]
    return subprocess.run(words, stdout=subprocess.PIPE, timeout=60).stdout.decode().strip()


def faults_in(trace):
    """Returns how many lines tell of a call of the array that failed."""
    return len(re.findall(rb"(?m)^(?:flash .*|off fault|array fault)$", trace))


def complaints(faults, trace, status):
    """Returns what is wrong with a run."""
    lines = trace.decode().splitlines()
    told = [] if lines[-1:] and lines[-1] in LAST.get(status, []) else [f"status {status} and the last line {lines[-1:]}"]
    if (status == 7 and "fail" not in faults) or (status == 8 and faults.count("cut") < 8):
        told.append(f"status {status} without a cause")
    if len(lines) > 1 and verdict(trace) != "accepted":
        told.append(f"the judge: {verdict(trace)}")
    if lines.count("cut") > faults.count("cut"):
        told.append("more cuts than the faults have")
    if faults_in(trace) > faults.count("fail"):
        told.append("more calls that fail than the faults have")
    if sim:
        if serve(sim, "sim.img", faults) != (trace, status):
            told.append("the simulator prints or answers otherwise")
        if image_of("sim.img") != image_of("card.img"):
            told.append("the simulator leaves another image")
    if not is_image("card.img"):
        told.append("no image is left")
    return told


def try_faults(case, kind, faults):
    """Serves the script with these faults, and says what is wrong."""
    trace, status = serve(program, "card.img", faults)
    told = complaints(faults, trace, status)
    seen[kind] += 1
    seen[f"status {status}"] += 1
    if told:
        wrong.append(told)
        print(f"faults: {case}: {faults!r}: {'; '.join(told)}", flush=True)
    return trace, status


def try_failure(case, kind, faults):
    """Serves the script with one call that fails, which must be told once."""
    trace, _ = try_faults(case, kind, faults)
    if faults_in(trace) != 1:
        wrong.append(faults)
        print(f"faults: {case}: {faults!r}: told {faults_in(trace)} times", flush=True)


def count_calls(whole, line):
    """Returns how many calls a run makes: the next one's fault would change nothing."""
    return next(n for n in itertools.count() if serve(program, "card.img", line.format(n + 1)) == whole)


def try_all(case):
    """Serves the script without faults and with each."""
    whole = try_faults(case, "without faults", "")
    programs, fetches = (count_calls(whole, line) for line in ("program {} fail 55\n", "fetch {} fail\n"))
    commands = max(map(int, re.findall(rb"(?m)^(?:params|address|poll|phase|discard) (\d+)", whole[0])))
    for n in range(1, programs + 1):
        cuts = [f"program {n + k} cut {mask}\n" for k, mask in enumerate(["aa", "55"] + ["f"] * 7)]
        try_failure(case, "program fails", f"program {n} fail 55\n")
        try_faults(case, "program is cut", cuts[0])
        try_faults(case, "program is cut twice", "".join(cuts[:2]))
        try_faults(case, "program is cut nine times", "".join(cuts))
    for n in range(1, fetches + 1):
        try_failure(case, "fetch fails", f"fetch {n} fail\n")
    for n in range(1, fetches + 9):
        try_faults(case, "fetch fails around a cut", f"program 1 cut aa\nfetch {n} fail\n")
    for n in range(commands + 1):
        try_faults(case, "cut behind a command", f"cut {n}\n")
    for n in range(1, commands + 1):
        for fault in ("lost", "noresp", "late", "data 1", "data 2"):
            try_faults(case, f"command is {fault.split()[0]}", f"bus {n} {fault}\n")
    print(f"faults: {case}: {programs} programs, {fetches} fetches and {commands} commands", flush=True)


def take(count):
    """Returns what comes out of a pipe that is closed after so many bytes, or before it ends, and the run's status."""
    shutil.copy(path("before.img"), path("card.img"))
    end, begin = os.pipe()
    fcntl.fcntl(begin, 1031, PIPE)  # F_SETPIPE_SZ
    words = [program, "run", path("card.img"), path("requests"), path("faults")]
    run = subprocess.Popen(words, stdout=begin, stderr=subprocess.DEVNULL)
    os.close(begin)
    taken = b""
    while len(taken) < count:
        piece = os.read(end, count - len(taken))
        if not piece:
            break
        taken += piece
    os.close(end)
    return taken, run.wait(timeout=60)


def close_pipes():
    """Runs with a trace of many pieces into pipes that are closed."""
    put("requests", "set depth 1\n" + "".join(f"write 0 4 ramp {n}\nread 0 8\n" for n in range(60)))
    whole, _ = serve(program, "card.img", "")
    counts = [0, 1, 4095, 4096, 65535, 65536, 65537, 100000, 131072, 196608, len(whole) - 2 * PIPE, len(whole)]
    for count in counts:
        taken, status = take(count)
        told = [] if taken == whole[:count] else ["other bytes were taken"]
        if status != (0 if count == len(whole) else 5):
            told.append(f"status {status}")
        if not is_image("card.img"):
            told.append("no image is left")
        seen["closed pipe"] += 1
        if told:
            wrong.append(told)
            print(f"faults: a pipe closed after {count} of {len(whole)} bytes: {'; '.join(told)}", flush=True)


for gate, (name, lines) in itertools.product(GATES, SETTINGS.items()):
    if only not in ("", name + gate):
        continue
    make_image(GATES[gate])
    put("requests", lines + SCRIPT)
    try_all(name + gate)
if only in ("", "closed pipes"):
    make_image(None)
    close_pipes()
print("faults: " + ", ".join(f"{kind}: {count}" for kind, count in seen.items()))
print(f"faults: {len(wrong)} runs are otherwise" if wrong else "faults: as expected" + (", as the simulator" if sim else ""))
sys.exit(1 if wrong else 0)
