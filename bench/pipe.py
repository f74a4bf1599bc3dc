"""Asks one process over a pipe, `session`, and waits for each answer before the next question.

pipe.py PROGRAM INPUT LINES                 writes the answers' lines to a file, and prints how many seconds the requests took
pipe.py PROGRAM INPUT --requests COUNT      asks again and again, and prints a table of the process's memory over so many requests
"""
import pathlib
import subprocess
import sys
import time


class Conversation:
    def __init__(self, program):
        self.process = subprocess.Popen([program, "session"], stdin=subprocess.PIPE, stdout=subprocess.PIPE)

    def ask(self, line):
        """The lines of an answer."""
        self.process.stdin.write(line)
        self.process.stdin.flush()
        lines = []
        while (each := self.process.stdout.readline()) != b"\n":
            assert each.endswith(b"\n"), "the process has ended"
            lines.append(each)
        return lines

    def size(self):
        """How many kilobytes of memory the process has, and had at most."""
        status = pathlib.Path(f"/proc/{self.process.pid}/status").read_text()
        return [int(status.split(name + ":")[1].split()[0]) for name in ("VmRSS", "VmHWM")]

    def close(self):
        self.process.stdin.close()
        assert self.process.wait() == 0


def timed(program, lines, out):
    conversation = Conversation(program)
    conversation.ask(lines[0])
    began = time.perf_counter()
    for line in lines[1:]:
        out.writelines(conversation.ask(line))
    print(f"{time.perf_counter() - began:.4f}")
    conversation.close()


def growth(program, lines, most):
    conversation = Conversation(program)
    conversation.ask(lines[0])
    print("| requests | seconds | memory, MB | at most, MB |\n|---|---|---|---|")
    began, asked, told = time.perf_counter(), 0, 0
    while asked < most:
        for line in lines[1:]:
            asked += len(conversation.ask(line))
            if asked >= told:
                now, peak = conversation.size()
                print(f"| {asked} | {time.perf_counter() - began:.1f} | {now / 1024:.1f} | {peak / 1024:.1f} |")
                told += most // 10
            if asked >= most:
                break
    conversation.close()


if __name__ == "__main__":
    words = sys.argv[1:]
    given = pathlib.Path(words[1]).read_bytes().splitlines(keepends=True)
    if words[2] == "--requests":
        growth(words[0], given, int(words[3]))
    else:
        with open(words[2], "wb") as out:
            timed(words[0], given, out)
