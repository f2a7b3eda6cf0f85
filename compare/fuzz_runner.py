#!/usr/bin/env python3
"""fuzz_runner.py COMMAND..: runs a command again and again, for fuzz.py; it isn't called by hand.

Each line of standard input is a request as JSON: the words of a run, its folder, the file for what it prints, and a limit of
processor time. Each answer is a line too: exit status (below 0 for a signal), processor time in seconds, and peak of memory in
bytes. This process stays small, since the memory of a process counts as that of its children. A command that is a Python script is
loaded once, and each run goes on from there in a process of its own.
"""
import json
import os
import resource
import runpy
import signal
import sys

# No run that is well goes on for so many seconds by the clock, nor asks for so many bytes.
SECONDS, ROOM = 120, 1 << 32


def prepared(command):
    """What starts a run once its process is there: another program, or the script that was loaded."""
    if len(command) != 2 or not os.path.basename(command[0]).startswith("python") or not command[1].endswith(".py"):
        return lambda words: os.execvp(command[0], command + words)
    script = os.path.abspath(command[1])
    sys.path.insert(0, os.path.dirname(script))
    runpy.run_path(script, run_name="loaded")

    def run(words):
        sys.argv = [script] + words
        runpy.run_path(script, run_name="__main__")
    return run


def begin(start, request):
    """The rest of a process that makes a run; it never comes back."""
    status = 0
    try:
        os.chdir(request["folder"])
        for number, name in ((0, os.devnull), (1, request["said"]), (2, request["heard"])):
            os.dup2(os.open(name, os.O_RDWR | os.O_CREAT | os.O_TRUNC), number)
        resource.setrlimit(resource.RLIMIT_CPU, (request["seconds"],) * 2)
        resource.setrlimit(resource.RLIMIT_AS, (ROOM, ROOM))
        resource.setrlimit(resource.RLIMIT_CORE, (0, 0))
        signal.alarm(SECONDS)
        start(request["words"])
    except SystemExit as end:
        status = end.code if isinstance(end.code, int) else 0 if end.code is None else 1
    except BaseException:  # a script that fails ends with a status that no table has
        sys.excepthook(*sys.exc_info())
        status = 99
    sys.stdout.flush()
    sys.stderr.flush()
    os._exit(status)


def main():
    start = prepared(sys.argv[1:])
    for line in sys.stdin:
        sys.stdout.flush()
        child = os.fork()
        if child == 0:
            begin(start, json.loads(line))
        _, status, usage = os.wait4(child, 0)
        print(json.dumps([os.waitstatus_to_exitcode(status), usage.ru_utime + usage.ru_stime, usage.ru_maxrss * 1024]), flush=True)


if __name__ == "__main__":
    main()
