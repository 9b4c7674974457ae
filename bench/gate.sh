#!/usr/bin/env bash
# Runs the gate from nothing, `rt ci --anew`, and says what each crate costs of it.
#
#     bench/gate.sh [NAME..]              of these crates and those below them, which isn't the gate; without names of all
#     bench/gate.sh --edits [CRATE..]     the same of tests/edits.sh in the place of the gate, with each edit's seconds
#     bench/gate.sh --table LOG           prints the table of an earlier run once more
#
# What rt prints goes to the file that the variable LOG names, else to gate.log in the system's temporary folder, and the table
# after it. While the run lasts, LOG.now has the table so far. It ends with rt's status.
#
# The table has processor seconds: of the proof of the crate's library, of the proof of its tests, of the ground of its
# edits (where a crate has two or more, rt proves it once more, and tries each edit over that; a crate with one edit has
# none, and its edit is tried from nothing), and of the edits with the check that closes them. They are read from the
# prover's processes four times a second, so a process's last quarter of a second is lacking. The sum in processor
# minutes is what the system counted for the whole run, and is exact. It wants bash, python3 and /proc.
set -eu

if [ "${1-}" = --table ]; then
    sed -n '/^crate  *library  *tests/,$p' "$2"
    exit
fi

log=$(realpath -m "${LOG:-${TMPDIR:-/tmp}/gate.log}")
cd "$(dirname "${BASH_SOURCE[0]}")/.."
exec python3 - "$log" "$@" <<'PYTHON'
import os, resource, signal, subprocess, sys, time

log, names = sys.argv[1], sys.argv[2:]
of_gate = names[:1] != ["--edits"]
command = ["rt", "ci", "--anew", *names] if of_gate else ["tests/edits.sh", *names[1:]]
TICK = os.sysconf("SC_CLK_TCK")
PARTS = ("library", "tests", "ground", "edits")


def edits_of(crate):
    """The crate's must-fail edits in the order in which rt numbers them."""
    try:
        return sorted(it for it in os.listdir(f"crates/{crate}/must-fail" if of_gate else f"tests/edits/{crate}") if it.endswith(".edit"))
    except OSError:
        return []


def times_of(pid):
    """The process's parent, start, own processor seconds, and those with its ended children's."""
    with open(f"/proc/{pid}/stat") as it:
        fields = it.read().rpartition(")")[2].split()
    own, ended = sum(map(int, fields[11:13])), sum(map(int, fields[13:15]))
    return int(fields[1]), int(fields[19]), own / TICK, (own + ended) / TICK


def words_of(pid):
    with open(f"/proc/{pid}/cmdline") as it:
        return it.read().split("\0")


class Check:
    """One run of the prover, with the processes that it forks."""

    def __init__(self, words, folder):
        self.crate = words[words.index("--crate-name") + 1]
        over = words[words.index("--incremental") + 1] if "--incremental" in words else ""
        self.edit = None
        if not os.path.basename(folder).startswith("rt-edit-"):
            self.part = "tests" if "--test" in words else "library"
        elif os.path.basename(over) == "seed":
            # (of two, the later one closes the edits)
            self.part = "edits" if self.crate in grounds else "ground"
            grounds.add(self.crate)
        else:
            self.part = "edits"
            edits, number = edits_of(self.crate), os.path.basename(over)
            if not over:
                self.edit = "from nothing"
            elif number.isdigit() and int(number) < len(edits):
                self.edit = edits[int(number)]
        self.whole, self.own = 0, {}

    def seconds(self):
        return max(self.whole, sum(self.own.values()))


grounds, checks, of_process = set(), [], {}


def look(rt):
    """Reads the times of the prover's processes below rt."""
    found = {}
    for name in os.listdir("/proc"):
        if name.isdigit():
            try:
                found[int(name)] = times_of(int(name))
            except (OSError, IndexError, ValueError):
                pass
    below = {}
    for pid, (parent, *_) in found.items():
        below.setdefault(parent, []).append(pid)
    waiting = [(it, None) for it in below.get(rt, [])]
    while waiting:
        pid, check = waiting.pop()
        _, start, own, whole = found[pid]
        is_top = check is None
        if is_top:
            check = of_process.get((pid, start))
            if check is None:
                try:
                    words = words_of(pid)
                    if os.path.basename(words[0]) == "rattle" and "--crate-name" in words:
                        check = Check(words, os.readlink(f"/proc/{pid}/cwd"))
                        checks.append(check)
                        of_process[pid, start] = check
                except (OSError, IndexError, ValueError):
                    pass
        if check is not None:
            check.own[pid, start] = own
            if is_top:
                check.whole = whole
        waiting += [(it, check) for it in below.get(pid, [])]


def table(spent, clock):
    """The table of what was read until now, where spent is the whole run's processor seconds if that is known."""
    rows = {}
    for check in checks:
        row = rows.setdefault(check.crate, dict.fromkeys(PARTS, 0))
        row[check.part] += check.seconds()
    sums = {part: sum(row[part] for row in rows.values()) for part in PARTS}
    read = sum(sums.values())
    line = lambda name, numbers: f"{name:<18}" + "".join(f"{it:>10.1f}" for it in numbers)
    yield f"{'crate':<18}" + "".join(f"{it:>10}" for it in (*PARTS, "sum"))
    for name, row in sorted(rows.items(), key=lambda it: -sum(it[1].values())):
        yield line(name, [*row.values(), sum(row.values())])
    yield line("read of all", [*sums.values(), read])
    whole = read if spent is None else spent
    yield line("the rest", [0, 0, 0, 0, whole - read])
    yield ""
    yield "processor minutes: " + ", ".join(f"{part} {sums[part] / 60:.1f}" for part in PARTS) + f", the rest {(whole - read) / 60:.1f}"
    yield f"{'in all until now' if spent is None else 'in all'}: {whole / 60:.1f} processor minutes, by the clock {clock / 60:.1f} minutes on {os.cpu_count()} processors"
    tried = {}
    for check in checks:
        if check.edit:
            at = f"{check.crate}/{check.edit}"
            tried[at] = tried.get(at, 0) + check.seconds()
    whole_proofs = [tried.pop(it) for it in list(tried) if it.endswith("/from nothing")]
    if whole_proofs:
        yield f"edits tried from nothing: of {len(whole_proofs)} crates, {sum(whole_proofs) / len(whole_proofs):.1f} s each"
    if tried:
        slow = [it for it in tried if tried[it] > 30]
        yield f"edits tried over a ground: {len(tried)}, {sum(tried.values()) / len(tried):.1f} s each; above 30 s: {len(slow)}"
        for it in sorted(slow if of_gate else tried, key=lambda it: -tried[it]):
            yield f"    {tried[it]:.1f} s {it}"


def write(path, lines):
    with open(f"{path}.new", "w") as it:
        it.writelines(f"{line}\n" for line in lines)
    os.replace(f"{path}.new", path)


begun = time.monotonic()
with open(log, "w") as out:
    rt = subprocess.Popen(command, stdin=subprocess.DEVNULL, stdout=out, stderr=subprocess.STDOUT)
for it in (signal.SIGINT, signal.SIGTERM):
    signal.signal(it, lambda *_: rt.terminate())
print(f"{' '.join(command)} writes to {log}, and {log}.now has the table so far", flush=True)

told = begun
while rt.poll() is None:
    look(rt.pid)
    if time.monotonic() - told >= 20:
        told = time.monotonic()
        try:
            write(f"{log}.now", table(None, told - begun))
        except OSError:
            pass
    time.sleep(0.25)

used = resource.getrusage(resource.RUSAGE_CHILDREN)
with open(log, errors="replace") as it:
    last = ([""] + it.read().split("\n"))[-2]
lines = [*table(used.ru_utime + used.ru_stime, time.monotonic() - begun), f"status {rt.returncode}: {last}"]
with open(log, "a") as out:
    out.writelines(f"{line}\n" for line in lines)
print("\n".join(lines))
if os.path.exists(f"{log}.now"):
    os.remove(f"{log}.now")
sys.exit(rt.returncode if rt.returncode >= 0 else 128 - rt.returncode)
PYTHON
