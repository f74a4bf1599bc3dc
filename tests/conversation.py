#!/usr/bin/env python3
"""Conversations with `sql_tool session`: what is answered, and when; and what becomes of it where a reader or a writer is killed.

    tests/conversation.py PROGRAM TOP        PROGRAM is run with the word `session`
"""
import json
import os
import pathlib
import select
import signal
import subprocess
import sys
import threading

PROGRAM, TOP = sys.argv[1], pathlib.Path(sys.argv[2])
SCHEMA = {"tables": [{"name": "foo", "columns": [{"name": "id", "type": "Integer"}, {"name": "name", "type": "Text"}]}]}
NONE = {"tables": []}
MOST = 16777216


def start(**options):
    return subprocess.Popen([PROGRAM, "session"], stdin=subprocess.PIPE, stdout=subprocess.PIPE, stderr=subprocess.PIPE, **options)


def document(schema, *requests):
    return json.dumps({"schema": schema, "requests": list(requests)}).encode()


def request(value, dialect="Pg"):
    calls = [["filter", {"eq": [{"col": ["foo", "id"]}, {"bind": ["Integer", value]}]}]]
    return {"dialect": dialect, "query": {"from": {"table": "foo"}, "calls": calls}}


def deep(levels):
    where = {"eq": [{"col": ["foo", "id"]}, {"bind": ["Integer", 1]}]}
    return {"dialect": "Pg", "query": {"from": {"table": "foo"}, "calls": [["filter", where]] * levels}}


def run(given):
    """What is written for an input, and the status and the word at the end."""
    done = subprocess.run([PROGRAM, "session"], input=given, stdout=subprocess.PIPE, stderr=subprocess.PIPE)
    return done.stdout, done.returncode, done.stderr.decode().strip()


def built(*requests):
    """The lines of `build` for one document."""
    return subprocess.run([PROGRAM, "build"], input=document(SCHEMA, *requests), stdout=subprocess.PIPE, check=True).stdout


def answers(given):
    """The answers of a conversation that comes to its end, each as its lines."""
    written, status, word = run(given)
    assert (status, word) == (0, ""), (status, word)
    assert written.endswith(b"\n\n") or written == b"\n" or not written, written[-100:]
    parts, lines = [], []
    for line in written.split(b"\n")[:-1]:
        if line:
            lines.append(line + b"\n")
        else:
            parts.append(lines)
            lines = []
    assert not lines, lines
    return parts


BAD, LARGE, DEEP = (b'{"error":"%s"}\n' % word for word in (b"BadDocument", b"TooLarge", b"TooDeep"))
OPENING = document(SCHEMA) + b"\n"


def one_document():
    """The answers, one after the other, are the output of one document."""
    asked = [request(1), request(2, "Mysql"), {"dialect": "Pg", "query": {"from": {"table": "nobody"}}}, request(3), request(4, "Mysql")]
    lines = [document(NONE, *asked[:2]), document(NONE), document(NONE, asked[2]), document(NONE, *asked[3:])]
    parts = answers(OPENING + b"\n".join(lines) + b"\n")
    assert [len(part) for part in parts] == [0, 2, 0, 1, 2], parts
    assert b"".join(b"".join(part) for part in parts) == built(*asked)


def first_line_with_requests():
    parts = answers(document(SCHEMA, request(1)) + b"\n" + document(NONE, request(2)))
    assert parts == [[line] for line in built(request(1), request(2)).splitlines(keepends=True)], parts


def line_ends():
    """CR before a newline is white space, and the last line may lack its newline. No input is no line."""
    whole = b"\r\n".join([document(SCHEMA), document(NONE, request(1)), document(NONE, request(2))])
    assert b"".join(b"".join(part) for part in answers(whole)) == built(request(1), request(2))
    assert answers(whole) == answers(whole + b"\n")
    assert answers(b"") == [] and answers(b"\n") == [[BAD]]


def bad_lines():
    """A line that is no such document is told so, and the session goes on; so before there is one."""
    lines = [b"", b"{}", b"\xff", document({"tables": [{"name": "x"}]}), document(SCHEMA), b"not JSON", document(SCHEMA, request(9)),
             document(NONE, request(1)), document(NONE, request(1))[:-1], document(NONE, request(2))]
    first, second = built(request(1), request(2)).splitlines(keepends=True)
    assert answers(b"\n".join(lines) + b"\n") == [[BAD]] * 4 + [[]] + [[BAD]] * 2 + [[first], [BAD], [second]]


def long_lines():
    line = document(NONE, request(1))
    full = line + b" " * (MOST - len(line))
    parts = answers(b"x" * (MOST + 1) + b"\n" + OPENING + full + b"\n" + full + b" \n" + b"y" * (3 * MOST) + b"\n" + line + b"\n")
    assert parts == [[LARGE], [], [built(request(1))], [LARGE], [LARGE], [built(request(1))]], [len(part) for part in parts]


def deep_requests():
    """A request that nests too deep ends its line: it and those after it are not answered, and the session has not counted them."""
    lines = [document(NONE, request(1), deep(3000), request(2)), document(NONE, request(3, "Mysql"))]
    first, second = built(request(1), request(3, "Mysql")).splitlines(keepends=True)
    assert answers(OPENING + b"\n".join(lines) + b"\n") == [[], [first, DEEP], [second]]
    assert answers(document(SCHEMA, deep(3000)) + b"\n" + document(NONE, request(1)) + b"\n") == [[DEEP], [built(request(1))]]


RESET = b'{"reset":true}'


def resets():
    """A reset is answered by no line. From there on ids are counted from 1 again, over the same schema."""
    asked = [request(1), request(2, "Mysql")]
    more = [document(NONE, item) for item in asked]
    first, second = built(*asked).splitlines(keepends=True)
    parts = answers(OPENING + b"\n".join([*more, RESET, more[1], more[0], RESET, b' {"reset" : true }\r', *more]) + b"\n")
    anew = built(asked[1], asked[0]).splitlines(keepends=True)
    assert parts == [[], [first], [second], [], [anew[0]], [anew[1]], [], [], [first], [second]], parts
    # Before a line has opened a session it is no document, and what only looks like one is none.
    assert answers(RESET + b"\n" + OPENING + more[0] + b"\n") == [[BAD], [], [first]]
    for line in (b'{"reset":false}', b'{"reset":1}', b'{"reset":true,"x":1}', b'{"Reset":true}', b'["reset",true]', b'{"reset":true} x', b"reset"):
        assert answers(OPENING + more[0] + b"\n" + line + b"\n" + more[1] + b"\n") == [[], [first], [BAD], [second]], line


def resets_keep_policies():
    """After a reset a session with policies has them still: no answer is unguarded."""
    policy = {"table": "foo", "predicate": {"eq": [{"col": ["foo", "id"]}, {"bind": ["Integer", {"value": "tenant"}]}]}}
    opening = json.dumps({"schema": SCHEMA, "tenant": [policy], "values": {"tenant": 7}, "requests": []}).encode()
    ask = {"dialect": "Pg", "query": {"from": {"table": "foo"}}}
    line = json.dumps({"schema": NONE, "values": {"tenant": 8}, "requests": [ask]}).encode()
    parts = answers(b"\n".join([opening, line, RESET, line, document(NONE, ask)]) + b"\n")
    assert parts[1] == parts[3] and json.loads(parts[3][0])["binds"] == [["Integer", 8]] and parts[4] == [BAD], parts


def read_answer(process):
    lines = []
    while True:
        line = process.stdout.readline()
        assert line.endswith(b"\n"), "the process has ended"
        if line == b"\n":
            return lines
        lines.append(line)


def prompt():
    """Each answer comes before the next line is sent, a byte at a time and many lines at once too."""
    process = start()
    for line in [document(SCHEMA), document(NONE, request(1)), document(NONE, request(2))]:
        for byte in line:
            process.stdin.write(bytes([byte]))
            process.stdin.flush()
        assert not select.select([process.stdout], [], [], 0.05)[0], "answered before the line has ended"
        process.stdin.write(b"\n")
        process.stdin.flush()
        read_answer(process)
    process.stdin.write(b"".join(document(NONE, request(number)) + b"\n" for number in range(100)))
    process.stdin.flush()
    assert [json.loads(read_answer(process)[0])["binds"][0][1] for _ in range(100)] == list(range(100))
    process.stdin.close()
    assert process.wait() == 0


def killed_writer():
    """Where the writer dies in the middle of a line, each line before is answered once, and what there is of the last is no document."""
    reads, writes = os.pipe()
    script = "import os,sys,time\nos.write(1, sys.stdin.buffer.read())\ntime.sleep(60)"
    writer = subprocess.Popen([sys.executable, "-c", script], stdin=subprocess.PIPE, stdout=writes)
    process = subprocess.Popen([PROGRAM, "session"], stdin=reads, stdout=subprocess.PIPE, stderr=subprocess.PIPE)
    os.close(reads)
    os.close(writes)
    line = document(NONE, request(1))
    writer.stdin.write(OPENING + line + b"\n" + line[:40])
    writer.stdin.close()
    read_answer(process)
    assert read_answer(process) == [built(request(1))]
    assert not select.select([process.stdout], [], [], 0.1)[0]
    writer.send_signal(signal.SIGKILL)
    writer.wait()
    written, _ = process.communicate()
    assert (written, process.returncode) == (BAD + b"\n", 0), (written, process.returncode)


def killed_reader():
    """Where the reader dies in the middle of an answer, the program ends with WriteFault, and has written whole lines but for the last."""
    reads, writes = os.pipe()
    many = document(NONE, *[request(number) for number in range(20000)])
    process = subprocess.Popen([PROGRAM, "session"], stdin=subprocess.PIPE, stdout=writes, stderr=subprocess.PIPE)
    os.close(writes)
    # The answer is longer than a pipe holds, so the program is in the middle of it when the pipe is closed.
    feeding = threading.Thread(target=lambda: (process.stdin.write(OPENING + many + b"\n"), process.stdin.flush()))
    feeding.start()
    feeding.join()
    taken = b""
    while len(taken) < 1000:
        taken += os.read(reads, 100000)
    os.close(reads)
    assert process.wait(60) == 5 and process.stderr.read().strip() == b"WriteFault"
    whole = b"\n" + subprocess.run([PROGRAM, "build"], input=document(SCHEMA, *[request(number) for number in range(20000)]),
                                   stdout=subprocess.PIPE, check=True).stdout
    assert whole.startswith(taken), len(taken)


def flat_memory():
    """After many requests of a few shapes the process is as large as after a few."""
    if not pathlib.Path("/proc/self/status").exists():
        print("skipped flat memory: no /proc")
        return
    process = start()
    process.stdin.write(OPENING)
    process.stdin.flush()
    read_answer(process)
    sizes = []
    for _ in range(3):
        for _ in range(100):
            process.stdin.write(document(NONE, *[request(number) for number in range(100)]) + b"\n")
            process.stdin.flush()
            assert len(read_answer(process)) == 100
        status = pathlib.Path(f"/proc/{process.pid}/status").read_text()
        sizes.append(int(status.split("VmRSS:")[1].split()[0]))
    process.stdin.close()
    assert process.wait() == 0
    assert sizes[-1] < sizes[0] * 1.1 + 500, sizes


for test in (one_document, first_line_with_requests, line_ends, bad_lines, long_lines, deep_requests, resets, resets_keep_policies, prompt, killed_writer,
             killed_reader, flat_memory):
    test()
    print(f"ok: {test.__name__.replace('_', ' ')}")
