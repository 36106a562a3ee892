#!/usr/bin/env python3
"""Measures the program on the requests of inputs.py.

usage: measure.py PROGRAM FOLDER [NAME ..]

Writes, for each request, its bytes, the instructions that callgrind counts in all, and those of reading the text into JSON values, of
reading these into nodes, of import, of export (but for the drop of its marks, which has no function of its own), of finding both shapes, of
both values and of writing, each with all that it calls; the greatest memory in use, and the seconds of one run. The requests are those of the folder, or the ones that are named.
"""

import re
import subprocess
import sys
import tempfile
from pathlib import Path

# The functions of each part that call no other one of it.
PARTS = {
    "values": ["serde_json::de::read_members"],
    "nodes": ["formula_json::node::read_node"],
    "import": ["import_core::decide::decide", "import_core::build::build"],
    "export": [
        "import_marks::making::make",
        "mark_runs::turn::turn",
        "mark_return::returns::parts_return",
        "mark_places::listing::list",
        "mark_core::way::is_way",
        "mark_core::probe::probed",
        "mark_core::commit::commit",
        "mark_places::left::left_of",
    ],
    "shapes": ["shape_core::analysis::run_static_analysis_on_node"],
    "evaluation": ["view_core::evaluator::ViewEvaluator::formula_value"],
    "writing": ["print_core::answer::answer_line"],
}


def callgrind(program, request, folder):
    out = Path(folder) / "out"
    with open(request, "rb") as given:
        subprocess.run(
            ["valgrind", "--tool=callgrind", f"--callgrind-out-file={out}", program, "answer"],
            stdin=given,
            stdout=subprocess.DEVNULL,
            stderr=subprocess.DEVNULL,
            check=True,
        )
    text = subprocess.run(
        ["callgrind_annotate", "--inclusive=yes", "--threshold=100", str(out)],
        capture_output=True,
        text=True,
        check=True,
    ).stdout
    counts = {}
    outermost = {}
    for line in text.splitlines():
        total = re.match(r"\s*([\d,]+) \(100\.0%\)\s+PROGRAM TOTALS", line)
        if total:
            counts["all"] = int(total.group(1).replace(",", ""))
        row = re.match(r"\s*([\d,]+) \(\s*[\d.]+%\)\s+(.*)", line)
        if row:
            called = re.sub(r"^\?\?\?:|::<#.*|\s\[.*", "", row.group(2))
            # A name with '2 behind it is that of the calls from within.
            if "'2" not in row.group(2):
                outermost.setdefault(called, int(row.group(1).replace(",", "")))
    for part, names in PARTS.items():
        found = [outermost[name] for name in names if name in outermost]
        if found:
            counts[part] = sum(found)
    return counts


def peak(program, request):
    with open(request, "rb") as given:
        done = subprocess.run(
            ["/usr/bin/time", "-f", "%M %e", program, "answer"], stdin=given, stdout=subprocess.DEVNULL, stderr=subprocess.PIPE, text=True, check=True
        )
    memory, seconds = done.stderr.split()[-2:]
    return int(memory), float(seconds)


def main():
    program, folder, *names = sys.argv[1:]
    requests = [Path(folder) / f"{name}.json" for name in names] or sorted(Path(folder).glob("*.json"))
    print("| Request | bytes | instructions, millions | text to values | values to nodes | import | export | shapes | both values | writing | peak KiB | seconds |")
    print("|---|---|---|---|---|---|---|---|---|---|---|---|")
    with tempfile.TemporaryDirectory() as work:
        for request in requests:
            counts = callgrind(program, request, work)
            memory, seconds = peak(program, request)
            million = lambda part: f"{counts[part] / 1e6:.1f}" if part in counts else "?"
            cells = [million(part) for part in ("all", "values", "nodes", "import", "export", "shapes", "evaluation", "writing")]
            print(f"| `{request.stem}` | {request.stat().st_size} | " + " | ".join(cells) + f" | {memory} | {seconds:.2f} |", flush=True)


if __name__ == "__main__":
    main()
