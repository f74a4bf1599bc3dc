"""Many queries on many workers: a local cluster of dask.distributed, one worker of which is killed, and the program of a pipe, as Spark
starts it."""
from __future__ import annotations

import concurrent.futures
import importlib
import json
import os
import pathlib
import shlex
import signal
import subprocess
import sys
import tempfile
import threading
import unittest
from typing import IO, Any, Dict, Iterable, List

import support
from support import Users
from hardieflax import query
from hardieflax.partitions import Progress, answered, map_partitions

WANTED = ["binds", "columns", "safe", "sql"]


def some(count: int) -> List[Any]:
    """Queries that differ in a value; every seventh breaks a rule."""
    return [query(Users).for_update() if number % 7 == 6 else query(Users).filter(Users.id == number) for number in range(count)]


def slow_program(folder: str) -> str:
    """A program that takes its time, so that a worker is killed at work."""
    path = pathlib.Path(folder) / "slow"
    path.write_text(f'#!/bin/sh\nsleep 0.3\nexec {support.needed_program()} "$@"\n')
    path.chmod(0o755)
    return str(path)


def piped(partition: Iterable[str], command: str, environment: Dict[str, str]) -> List[str]:
    """The lines that a command answers to a partition, by the protocol of Spark's `RDD.pipe(command, checkCode=True)`: a process for each
    partition, its words split as a shell does, a line for each element from a thread of its own, and an error where the status is not 0."""
    process = subprocess.Popen(shlex.split(command), env=environment, stdin=subprocess.PIPE, stdout=subprocess.PIPE)

    def write(out: IO[bytes]) -> None:
        try:
            for each in partition:
                out.write((each.rstrip("\n") + "\n").encode())
            out.close()
        except BrokenPipeError:
            pass  # the status tells
    assert process.stdin is not None and process.stdout is not None
    writer = threading.Thread(target=write, args=[process.stdin])
    writer.start()
    lines = [line.rstrip(b"\n").decode() for line in iter(process.stdout.readline, b"")]
    writer.join()
    process.stdout.close()
    if process.wait() != 0:
        raise OSError(f"the command ended with {process.returncode}")
    return lines


class Documents(unittest.TestCase):
    def check(self, told: List[Any], count: int) -> None:
        self.assertEqual(len(told), count)
        for number, each in enumerate(told):
            if number % 7 == 6:
                self.assertEqual(each, {"refused": "Unsupported"})
            else:
                self.assertEqual((sorted(each), each["binds"]), (WANTED, [["BigInt", number]]))

    def test_a_document(self) -> None:
        engine = support.engine()
        schema = json.dumps(support.SCHEMA.document())
        self.check(answered(schema, "Sqlite", [json.dumps(each.json()) for each in some(30)], engine), 30)
        deep: Any = {"from": {"table": "users"}, "calls": [["filter", {"col": ["users", "active"]}]] * 2600}
        told = answered(schema, "Sqlite", [json.dumps(each) for each in (some(1)[0].json(), deep, {"from": 5}, some(1)[0].json())], engine)
        self.assertEqual(["sql" in each for each in told], [True, False, False, True])
        self.assertIn("nests deeper", told[1]["error"])

    def test_a_pipe(self) -> None:
        with tempfile.TemporaryDirectory() as folder:
            path = pathlib.Path(folder) / "schema.json"
            path.write_text(support.SCHEMA.json())
            environment = {**os.environ, "HARDIEFLAX_PROGRAM": support.needed_program(), "PYTHONPATH": str(support.HERE.parent / "src")}
            words = [sys.executable, "-m", "hardieflax.partitions", str(path)]
            lines = [json.dumps(each.json()) for each in some(10)] + ["no json", json.dumps({"from": {"table": "users"}, "x": "\u2028é"},
                                                                                            ensure_ascii=False)]
            run = subprocess.run([*words, "Sqlite"], input="\n".join(lines).encode(), stdout=subprocess.PIPE, env=environment)
            told = [json.loads(line) for line in run.stdout.decode().split("\n")[:-1]]
            self.check(told[:10], 10)
            self.assertEqual((told[10], "sql" in told[11], len(told)), ({"error": "the line is no JSON"}, True, 12))
            self.assertEqual(subprocess.run([*words, "Oracle"], stderr=subprocess.PIPE, env=environment).returncode, 2)

    def test_the_pipe_of_spark(self) -> None:
        """Partitions at a time, of which one is empty and one larger than pipes hold; a process that is killed fails its own partition."""
        with tempfile.TemporaryDirectory() as folder:
            path = pathlib.Path(folder) / "a schema.json"
            path.write_text(support.SCHEMA.json())
            environment = {**os.environ, "HARDIEFLAX_PROGRAM": support.needed_program(), "PYTHONPATH": str(support.HERE.parent / "src")}
            command = f"{sys.executable} -m hardieflax.partitions {shlex.quote(str(path))} Sqlite"
            lines = [json.dumps(each.json()) for each in some(3500)]
            partitions: List[List[str]] = [lines[:14], [], lines, lines[:1]]
            with concurrent.futures.ThreadPoolExecutor(2) as pool:
                told = list(pool.map(lambda each: piped(each, command, environment), partitions))
            for each, partition in zip(told, partitions):
                self.check([json.loads(line) for line in each], len(partition))
            with self.assertRaises(OSError):
                piped(lines[:1], command.replace("Sqlite", "Oracle"), environment)

    @unittest.skipUnless(os.environ.get("HARDIEFLAX_CLUSTER"), "HARDIEFLAX_CLUSTER=1 starts a cluster and kills a worker of it")
    def test_a_cluster_that_loses_a_worker(self) -> None:
        try:
            dask: Any = importlib.import_module("dask")
            distributed: Any = importlib.import_module("distributed")
        except ImportError as error:
            raise unittest.SkipTest(f"no dask.distributed: {error}")
        os.environ["PYTHONPATH"] = str(support.HERE.parent / "src")
        os.environ.pop("HARDIEFLAX_LIBRARY", None)
        os.environ["HARDIEFLAX_PROGRAM"] = support.needed_program()
        # A document whose worker died is then not asked for again by dask itself, but by the package.
        options = {"distributed.scheduler.allowed-failures": 0, "distributed.worker.use-file-locking": False,
                   "distributed.logging.distributed": "critical"}
        told: List[Any] = []
        seen: List[Progress] = []
        with dask.config.set(options), tempfile.TemporaryDirectory() as folder:
            with distributed.LocalCluster(n_workers=3, threads_per_worker=1, dashboard_address=None, local_directory=folder,
                                          silence_logs=50) as cluster, distributed.Client(cluster) as client:
                client.run(os.environ.update, {"HARDIEFLAX_PROGRAM": slow_program(folder)})
                processes = dict(client.run(os.getpid))
                for each in map_partitions(client, support.SCHEMA, "Sqlite", some(600), size=25, on_progress=seen.append):
                    told.append(each)
                    if len(told) < 100 or len(told) % 25 or not processes:
                        continue
                    busy = [worker for worker, keys in client.processing().items() if keys]
                    if busy:
                        os.kill(processes[busy[0]], signal.SIGKILL)
                        processes.clear()
        self.check(told, 600)
        self.assertEqual((seen[-1].answered, seen[-1].total, [each.answered for each in seen]), (600, 600, list(range(25, 601, 25))))
        self.assertGreater(seen[-1].again, 0)
        self.assertIn("600 of 600 queries answered", str(seen[-1]))


if __name__ == "__main__":
    unittest.main()
