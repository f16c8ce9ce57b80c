#!/usr/bin/env python3
"""Runs the tests of a list two at a time, and prints what each of them wrote in one piece, once it has ended.

    tests/side_by_side.py LIST

tests/gate.txt says what a line of LIST has. A test fails if its command does, if it takes longer than it may (`timeout` ends it then), or
if the test that has to pass before it failed. The last line is 'N passed, M failed'; the exit status is 1 if M is not 0.
"""
import pathlib
import subprocess
import sys
import threading
import time
from dataclasses import dataclass

WORKERS = 2


@dataclass
class Test:
    name: str
    limit: str
    before: str
    command: str


def listed(path):
    tests, known = [], {"-"}
    for line in pathlib.Path(path).read_text().splitlines():
        words = line.split("#")[0].split(None, 3)
        if not words:
            continue
        if len(words) < 4 or words[0] in known or not words[1].isdigit() or words[2] not in known:
            sys.exit(f"side_by_side: {path}: expected a new name, seconds, a name from above or -, and a command: {line}")
        known.add(words[0])
        tests.append(Test(*words))
    if not tests:
        sys.exit(f"side_by_side: {path} lists no test")
    return tests


class Runner:
    def __init__(self, tests):
        self.waiting = tests
        self.verdicts = {"-": True}
        self.changed = threading.Condition()

    def work(self):
        while test := self.next():
            began = time.monotonic()
            try:
                passed, said, text = self.outcome(test)
            except OSError as fault:
                passed, said, text = False, f"FAILED: {fault}", ""
            with self.changed:
                sys.stdout.write(text if text.endswith("\n") or not text else text + "\n")
                print(f"test {test.name}: {said} ({time.monotonic() - began:.0f} s)", flush=True)
                self.verdicts[test.name] = passed
                self.changed.notify_all()

    def next(self):
        """The first test whose turn it is; none once all have begun."""
        with self.changed:
            while self.waiting:
                for test in self.waiting:
                    if test.before in self.verdicts:
                        self.waiting.remove(test)
                        return test
                self.changed.wait()
        return None

    def outcome(self, test):
        if not self.verdicts[test.before]:
            return False, f"FAILED: not run, since {test.before} failed", ""
        done = subprocess.run(["timeout", "-k", "10", test.limit, "sh", "-c", test.command], stdin=subprocess.DEVNULL,
                              stdout=subprocess.PIPE, stderr=subprocess.STDOUT, check=False, text=True, errors="replace")
        if done.returncode == 0:
            return True, "passed", done.stdout
        late = done.returncode in (124, 137)
        return False, f"FAILED: longer than {test.limit} s" if late else f"FAILED: exit status {done.returncode}", done.stdout


def main():
    if len(sys.argv) != 2:
        sys.exit(__doc__)
    tests = listed(sys.argv[1])
    runner = Runner(list(tests))
    workers = [threading.Thread(target=runner.work) for _ in range(WORKERS)]
    for worker in workers:
        worker.start()
    for worker in workers:
        worker.join()
    failed = sum(not runner.verdicts.get(test.name) for test in tests)
    print(f"{len(tests) - failed} passed, {failed} failed")
    return 1 if failed else 0


if __name__ == "__main__":
    sys.exit(main())
