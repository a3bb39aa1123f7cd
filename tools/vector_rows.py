"""The vectors of examples/vectors.json for `check_program`."""

import hashlib
import json
import subprocess
from pathlib import Path

from check_medium import Finding, check
from check_vectors import made, sums

OPEN_GATES = b"\xa7\xa7"


def vector_rows(table, program, examples):
    """What `build` writes of each vector's ballots, in two orders; what audit and second opinion say of its medium."""
    for number, vector in enumerate(json.loads((examples / "vectors.json").read_text())["vectors"], 1):
        name, results = vector["name"], made(vector)
        table.same(f"the sums of {name}", sums(results), {key: vector[key] for key in results})
        path = table.file(f"vector{number}.json", json.dumps(vector["election"]).encode())
        lines = results["lines"].splitlines(keepends=True)
        for order in (lines, lines[::-1]):
            done = subprocess.run([program, "unused", path, "build"], input=b"".join(order), capture_output=True)
            found = {"bytes": len(done.stdout), "sha256": hashlib.sha256(done.stdout).hexdigest()}
            table.same(f"the image of {name}", (done.returncode, found, done.stderr), (0, vector["image"], b""))
        medium = table.file("vector.medium", done.stdout * 2 + OPEN_GATES)
        table.row(f"the audit of {name}", [medium, path, "audit"], (0, ""), output=b"canonical %d\n" % len(lines))
        table.same(f"a second opinion on {name}", opinion(medium, path), len(lines))
        if len(done.stdout) > 1 << 20:  # the largest banks are built alone
            continue
        Path(medium).unlink()
        script = b"open cast 3\n" + b"".join(b"cast %d %s" % (at % 3 + 1, line) for at, line in enumerate(lines))
        script += b"close\ncheckpoint\nexport\n"
        table.row(f"a medium for {name}", [medium, path, "init"], (0, ""), output=b"ready\n")
        done = subprocess.run([program, medium, path, "session"], input=script, capture_output=True)
        told = b"checkpoint %d\nexport %d\n%s" % (len(lines), len(lines), results["lines"])
        table.same(f"the export of {name}", done.stdout[-len(told):], told)
        found = Path(medium).read_bytes() if Path(medium).exists() else b""
        table.same(f"the medium of {name}", hashlib.sha256(found).hexdigest(), vector["medium"]["sha256"])


def opinion(medium, path):
    """How many ballots the second opinion finds in a medium; its status and line where it finds something else."""
    try:
        return check([medium, path])
    except Finding as finding:
        return finding.args
