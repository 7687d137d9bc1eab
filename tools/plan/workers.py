"""Processes that read captures side by side. Each takes one task at a time on its standard input and answers on its standard output, so it
ends when this process does."""
import os, pickle, subprocess, sys
from collections import deque
from contextlib import suppress
from plan import parts, selection
from plan.faults import READ, Refusal

PROGRAM = "import sys; sys.path.insert(0, sys.argv[1]); sys.dont_write_bytecode = True; from plan.workers import serve; serve()"
FOLDER = os.path.dirname(os.path.dirname(os.path.realpath(__file__)))
# What is asked of a process, as this Python does it by itself.
PLAINLY = {"select": selection.selected, "make": parts.made}


def serve():
    """Does what is asked on standard input."""
    asked, answers = sys.stdin.buffer, sys.stdout.buffer
    tasks = tasks_of()
    while True:
        try:
            name, words = pickle.load(asked)
        except EOFError:
            return
        try:
            answer = True, tasks[name](*words)
        except Refusal as refusal:
            answer = False, (refusal.status, str(refusal))
        pickle.dump(answer, answers, protocol=5)
        answers.flush()


def tasks_of():
    """What is done for each name: by numpy if it is installed."""
    try:
        from plan import arrays
    except ImportError:
        return PLAINLY
    return {"select": arrays.selected, "make": arrays.made}


class Here:
    """Does what is asked in this process."""

    def each(self, name, tasks):
        return (PLAINLY[name](*words) for words in tasks)


class Workers:
    """Does what is asked in as many processes."""

    def __init__(self, number):
        words = [sys.executable, "-c", PROGRAM, FOLDER]
        how = {"stdin": subprocess.PIPE, "stdout": subprocess.PIPE, "process_group": 0}
        self.processes = [subprocess.Popen(words, **how) for _ in range(number)]

    def __enter__(self):
        return self

    def __exit__(self, *wrong):
        for process in self.processes:
            process.kill()
            process.wait()
            with suppress(BrokenPipeError):
                process.stdin.close()
            process.stdout.close()

    def each(self, name, tasks):
        """The answers to tasks, in order."""
        waiting = deque()
        for number, words in enumerate(tasks):
            process = self.processes[number % len(self.processes)]
            if len(waiting) == len(self.processes):
                yield answer_of(waiting.popleft())
            ask(process, name, words)
            waiting.append(process)
        while waiting:
            yield answer_of(waiting.popleft())


def ask(process, name, words):
    try:
        pickle.dump((name, words), process.stdin, protocol=5)
        process.stdin.flush()
    except BrokenPipeError:
        raise ended() from None


def answer_of(process):
    try:
        is_done, answer = pickle.load(process.stdout)
    except (EOFError, pickle.UnpicklingError):
        raise ended() from None
    if not is_done:
        raise Refusal(*answer)
    return answer


def processors():
    return len(os.sched_getaffinity(0))


def ended():
    return Refusal(READ, "a process that reads captures ended early; is there enough memory?")
