"""Runs `sql_tool build` over documents that grow, and prints a row for each; `bench/scale.sh` calls it.

With --stack it finds how much stack the deepest documents take on `build` and on `guard`, the deepest texts (`bench/nested_texts.py`) on `read` and
on `audit`, and what a level takes of it. Else seconds are those of a processor, the program's and the system's, so that other work on the machine changes little. The exponent is
that of the seconds between a size and the one before, by the count: 1 is linear, 2 the square. Beside the peak memory is that of
parsing alone: of a run over the document between brackets, which is JSON and no document.
"""
import argparse
import json
import math
import os
import resource
import signal
import subprocess
import sys
import tempfile

import documents
import nested_texts

# The most bytes that a document may have, less the brackets.
LIMIT = 16777216 - 2
STATUSES = {0: "Done", 2: "Usage", 3: "BadDocument", 4: "ReadFault", 5: "WriteFault", 6: "NoMemory", 7: "TooLarge"}
HEAD = "| direction | count | bytes | seconds | exponent | peak, MB | parsing, MB | lines | refused | ends |\n|---|---|---|---|---|---|---|---|---|---|"


def run(program, path, most):
    """How a run ends, its seconds, its peak memory in MB, its output."""
    with open(path, "rb") as source, tempfile.TemporaryFile() as sink, tempfile.NamedTemporaryFile("r") as times:
        # (a child's peak is at least that of the process that starts it, so this one does not start the program itself)
        words = ["/usr/bin/time", "-f", "%U %S %M", "-o", times.name, "timeout", str(most), program, "build"]
        code = subprocess.run(words, stdin=source, stdout=sink, stderr=subprocess.DEVNULL, check=False).returncode
        user, system, kilobytes = times.read().split("\n")[-2].split()
        sink.seek(0)
        text = sink.read()
    if code > 128:
        end = f"KILLED by {signal.Signals(code - 128).name}"
    elif code == 124:
        end = f"over {most} s"
    else:
        end = STATUSES.get(code, f"status {code}")
    return end, float(user) + float(system), int(kilobytes) // 1024, text


def written(direction, size, most):
    """The largest count, at most `most`, whose document has at most so many bytes, and that document."""
    per = (len(documents.document(direction, 2000)) - len(documents.document(direction, 1000))) / 1000
    count = max(1, int(size / per))
    while True:
        if most is not None:
            count = min(count, most)
        text = documents.document(direction, count)
        if len(text) <= size or count == 1:
            return count, text
        count = max(1, min(count - 1, int(count * size / len(text))))


def sizes(direction, least, most):
    """Documents of this direction, from the smallest size on, each four times as large; twice, where the count has a bound."""
    bound = documents.DIRECTIONS[direction][1]
    if bound is None:
        bytes_each = [most]
        while bytes_each[-1] // 4 >= least:
            bytes_each.append(bytes_each[-1] // 4)
        for size in reversed(bytes_each):
            yield written(direction, size, None)
    else:
        for part in (8, 4, 2, 1):
            count, text = bound // part, documents.document(direction, bound // part)
            if len(text) <= most:
                yield count, text


def measure(program, direction, least, most, longest):
    before = None
    for count, text in sizes(direction, least, most):
        with tempfile.TemporaryDirectory() as folder:
            path = os.path.join(folder, "document")
            with open(path, "w", encoding="ascii") as file:
                file.write(text)
            end, seconds, peak, output = run(program, path, longest)
            with open(path, "w", encoding="ascii") as file:
                file.write(f"[{text}]")
            parsing = run(program, path, longest)[2]
        exponent = "-"
        if before is not None and before[1] >= 0.02 and seconds > 0 and count > before[0]:
            exponent = f"{math.log(seconds / before[1]) / math.log(count / before[0]):.1f}"
        before = count, seconds
        lines = output.count(b"\n")
        refused = output.count(b'\n{"refused"') + output.startswith(b'{"refused"')
        print(f"| {direction} | {count} | {len(text)} | {seconds:.2f} | {exponent} | {peak} | {parsing} | {lines} | {refused} | {end} |", flush=True)
        yield end, seconds


def takes_stack(words, path, kilobytes):
    """Whether a run with so much stack ends by a signal."""
    limit = kilobytes * 1024
    with open(path, "rb") as source:
        child = subprocess.run(
            words, stdin=source, stdout=subprocess.DEVNULL, stderr=subprocess.DEVNULL, check=False,
            preexec_fn=lambda: resource.setrlimit(resource.RLIMIT_STACK, (limit, limit)),
        )
    return child.returncode < 0


def least_stack(words, text):
    """The fewest kilobytes of stack, within one in a hundred, with which a run over the input does not end by a signal.

    Fails where the run does not end as Done with ample stack: what is refused early takes no stack.
    """
    with tempfile.NamedTemporaryFile("w", encoding="ascii") as file:
        file.write(text)
        file.flush()
        with open(file.name, "rb") as source:
            subprocess.run(words, stdin=source, stdout=subprocess.DEVNULL, check=True)
        few, enough = 64, 128
        while takes_stack(words, file.name, enough):
            few, enough = enough, enough * 2
        while enough - few > max(4, few // 100):
            middle = (few + enough) // 2
            if takes_stack(words, file.name, middle):
                few = middle
            else:
                enough = middle
    return enough


# Directions whose statements read a table at each level, which a guard makes a level deeper.
DEEPER_WHEN_GUARDED = {"aliases", "left_joins"}

# A guard of the table that most directions read.
GUARD = {"table": "users", "predicate": documents.is_number(1)}


def in_each_dialect(direction, count, **more):
    """The direction's document, with its request in each dialect."""
    schema, written = documents.DIRECTIONS[direction][0](count)
    everything = [{**request, "dialect": dialect} for dialect in ("Pg", "Mysql", "Sqlite", "Bracket") for request in written]
    return json.dumps({"schema": schema, **more, "requests": everything}, separators=(",", ":"))


def deepest(command, direction):
    """The words of the command, the largest count, and a function of a count that gives the input."""
    if command == "build":
        return [command], documents.DIRECTIONS[direction][1], lambda count: in_each_dialect(direction, count)
    if command == "guard":
        most = documents.DIRECTIONS[direction][1]
        return (
            [command],
            most // 2 if direction in DEEPER_WHEN_GUARDED else most,
            lambda count: in_each_dialect(direction, count, guard=GUARD),
        )
    dialect, text = nested_texts.KINDS[direction]
    if command == "read":
        return [command, dialect], nested_texts.MAX_DEPTH, text
    return [command, dialect], nested_texts.MAX_DEPTH, lambda count: json.dumps({"schema": {"tables": nested_texts.TABLES}, "texts": [text(count)]})


def stack_directions(given):
    """The commands and directions to measure: all, or those given, as `guard:unions`; a name alone is a direction of `build`."""
    if given:
        return [tuple(name.split(":")) if ":" in name else ("build", name) for name in given]
    guarded = [direction for direction in documents.NESTING if direction != "finds"]
    return [
        *(("build", direction) for direction in documents.NESTING),
        *(("guard", direction) for direction in guarded),
        *(("read", kind) for kind in nested_texts.KINDS),
        *(("audit", kind) for kind in nested_texts.KINDS),
    ]


def measure_stack(program, directions):
    print("| command | direction | count | stack, KB | half the count, KB | bytes a level |\n|---|---|---|---|---|---|")
    for command, direction in stack_directions(directions):
        words, count, made = deepest(command, direction)
        all_of_it, half = (least_stack([program, *words], made(n)) for n in (count, count // 2))
        level = (all_of_it - half) * 1024 // (count - count // 2)
        print(f"| {command} | {direction} | {count} | {all_of_it} | {half} | {level} |", flush=True)


def main():
    options = argparse.ArgumentParser(description=__doc__.split("\n")[0])
    options.add_argument("program", help="the program to run")
    options.add_argument("directions", nargs="*", metavar="DIRECTION", help="the directions to run, else all: " + ", ".join(documents.DIRECTIONS))
    options.add_argument("--least", type=int, default=60000, help="the bytes of the smallest document, at least (60000)")
    options.add_argument("--most", type=int, default=LIMIT, help="the bytes of the largest document (16777214)")
    options.add_argument("--seconds", type=int, default=120, help="a run is ended after so many seconds (120)")
    options.add_argument("--stack", action="store_true", help="find how much stack the deepest documents take")
    given = options.parse_intermixed_args()
    if given.stack:
        measure_stack(given.program, given.directions)
        return
    print(HEAD, flush=True)
    failed = False
    for direction in given.directions or documents.DIRECTIONS:
        for end, seconds in measure(given.program, direction, given.least, given.most, given.seconds):
            failed = failed or end not in ("Done", "NoMemory") or seconds > 20
            if end.startswith("over"):
                break
    sys.exit(1 if failed else 0)


main()
