#!/usr/bin/python3
"""Judges the resources of an NDJSON file on a Dask cluster: each part of the file by a run of `fhirprof validate-all` on a worker.

usage: validate.py PACKAGE PROFILE FILE WORKERS [PROGRAM [MB]]

WORKERS is the address of a scheduler, as tcp://HOST:8786, or how many workers to start on this machine. README.md says more.
"""

import json
import os
import re
import subprocess
import sys
from collections import Counter

from dask.distributed import Client, LocalCluster, as_completed

COUNTED = {"conforms": "conforms", "violates": "violates", "open": "open", "fault": "faults", "memory": "no memory", "empty": "empty lines"}


def part_of(path, start, size):
    """The lines that begin in so many bytes from `start`, the last of them to its end."""
    with open(path, "rb") as file:
        if start:
            file.seek(start - 1)
            file.readline()
        part = file.read(max(0, start + size - file.tell()))
        return part if part.endswith(b"\n") or not part else part + file.readline()


def judged(command, path, start, size):
    """How many lines a part has, how many have each verdict, and the answers that are told. A worker runs this."""
    part = part_of(path, start, size)
    lines = part.count(b"\n") + (part[-1:] not in (b"\n", b""))
    ran = subprocess.run(command, input=part, capture_output=True)
    answers = [json.loads(text) for text in ran.stdout.split(b"\n") if text]
    if [it["line"] for it in answers] != [*range(1, lines + 1)]:
        raise RuntimeError(f"{len(answers)} answers for {lines} lines, status {ran.returncode}: {ran.stderr.decode(errors='replace')}")
    return lines, Counter(it["verdict"] for it in answers), [it for it in answers if it["verdict"] in ("violates", "fault", "memory")]


def tell(path, before, answer):
    """Prints the rows that `validate-all` prints of a line without --json, but for plain words. So many lines stand before the part."""
    rows = [f"{before + answer['line']}: {answer['verdict'].replace('memory', 'no memory')}"]
    for outcome in answer["outcomes"]:
        for issue, (line, column) in zip(outcome["outcome"]["issue"], outcome["at"]):
            row = [f"{before + line}:{column}", *issue.get("expression", []), issue["diagnostics"]]
            rows += [": ".join(row)] * (issue["severity"] != "information")
    for row in rows:
        print(re.sub(r"[\0-\x1f\x7f-\x9f]", lambda it: f"\\u{ord(it[0]):04x}", f"{path}:{row}"), flush=True)


def run(client, package, profile, path, program="fhirprof", megabytes="8"):
    command, size = [program, "validate-all", package, profile, "-", "--json"], int(float(megabytes) * 1_000_000)
    starts = range(0, os.path.getsize(path), size)
    parts = [client.submit(judged, command, path, start, size, pure=False, retries=2) for start in starts]
    results, counts, number, before = {}, Counter(), 0, 0
    for part, result in as_completed(parts, with_results=True):
        results[part.key] = result  # one for each part, however often it was dealt out
        part.release()
        while number < len(parts) and parts[number].key in results:
            lines, verdicts, told = results.pop(parts[number].key)
            for answer in told:
                tell(path, before, answer)
            counts, number, before = counts + verdicts, number + 1, before + lines
    print(", ".join(f"{name}: {counts[verdict]}" for verdict, name in COUNTED.items()), flush=True)
    return 1 if counts["violates"] else 5 if counts["memory"] else 3 if counts["fault"] else 2 if counts["open"] else 0


if __name__ == "__main__":
    if not 5 <= len(sys.argv) <= 7:
        print(__doc__, file=sys.stderr)
        sys.exit(4)
    try:
        local = sys.argv[4].isdigit() and LocalCluster(n_workers=int(sys.argv[4]), threads_per_worker=1, dashboard_address=None)
        with Client(local or sys.argv[4]) as connected:
            sys.exit(run(connected, *sys.argv[1:4], *sys.argv[5:]))
    except Exception as fault:
        print(f"validate.py: {fault}", file=sys.stderr)
        sys.exit(3)
