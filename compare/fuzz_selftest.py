#!/usr/bin/env python3
"""fuzz_selftest.py [REFERENCE]: whether fuzz.py finds what it is there for.

Plants a fault in the reference (the command REFERENCE, `python3 reference/hminify.py` if none is told), gives that to fuzz.py as the program,
and the reference as it is beside it. Each fault has to be found by the question that is named for it, and a small case with it
has to be left. Without a fault nothing may be found, and each sort of comparison has to have been made. The faults:

- told by `tree`: `minify` loses the first letter after a tag in OUT;
- told by `length`: `check` says yes to texts that are too long (`no 7`);
- told by `status`: the program is ended by a signal on a page with a comment;
- told by `files`: a page that is refused leaves OUT empty;
- told by `reference` alone: in `no 6` the bound is one more than it is.

Prints a line for each, and ends with 1 if one isn't found or something is found without a fault. Needs what fuzz.py needs.
"""
import io
import os
import re
import runpy
import shlex
import signal
import subprocess
import sys
import tempfile

HERE = os.path.dirname(os.path.abspath(__file__))
REFERENCE = "python3 " + os.path.abspath(os.path.join(HERE, "../reference/hminify.py"))
STANDARD = os.path.abspath(os.path.join(HERE, "../tables/entities.json"))

# The fault, the question that has to tell it, and the most bytes that the small input of it may have.
FAULTS = [("letter", "tree", 120), ("longer", "length", 160), ("signal", "status", 60), ("emptied", "files", 60), ("bound", "reference", 250)]
RUNS, CLEAN_RUNS = 2000, 200


def captured(script):
    """What a script prints, and its status; it is the one of `script` with the words of this process."""
    kept, sink = sys.stdout, io.TextIOWrapper(io.BytesIO(), encoding="utf-8")
    sys.stdout, status = sink, 0
    try:
        runpy.run_path(script, run_name="__main__")
    except SystemExit as end:
        status = end.code or 0
    finally:
        sys.stdout = kept
    sink.flush()
    return status, sink.buffer.getvalue()


def with_fault(fault, words, status, said):
    """The status and the printed bytes of a run with a fault; the files are changed here too."""
    if fault == "letter" and words[0] == "minify" and status == 0:
        with open("out", "rb+") as file:
            text = file.read()
            file.seek(0)
            file.write(re.sub(rb"(?<=>)\w", b"", text, count=1))
            file.truncate()
            said = b"length %d\n" % file.tell()
    elif fault == "longer" and said.startswith(b"no 7 "):
        status, said = 0, b"yes %d\n" % os.path.getsize("out")
    elif fault == "signal":
        with open("page", "rb") as file:
            if b"<!--" in file.read():
                os.kill(os.getpid(), signal.SIGSEGV)
    elif fault == "emptied" and status == 3 and "out" in words:
        open("out", "wb").close()
    elif fault == "bound" and said.startswith(b"no 6"):
        said = re.sub(rb"\d+\n", lambda m: b"%d\n" % (int(m[0]) + 1), said)
    return status, said


def faulty(words):
    """The program with a fault; the environment names both."""
    script = os.environ["HMINIFY_FUZZ_SCRIPT"]
    if len(words) > 1 and words[1] == "html":
        words = [words[0], STANDARD, *words[2:]]
    sys.argv = [script, *words]
    status, said = with_fault(os.environ["HMINIFY_FUZZ_FAULT"], words, *captured(script))
    sys.stdout.buffer.write(said)
    return status


def fuzzed(reference, fault, kind, runs, keep):
    """What fuzz.py says of the program with a fault."""
    words = [sys.executable, os.path.join(HERE, "fuzz.py"), "--program", "python3 " + os.path.abspath(__file__), "--reference", reference,
             "--slack", "200", "--share", "1", "--runs", str(runs), "--seed", "5", "--keep", keep] + (["--until", kind] if kind else [])
    script = os.path.abspath(shlex.split(reference)[-1])
    environment = {**os.environ, "HMINIFY_FUZZ_SCRIPT": script, "HMINIFY_FUZZ_FAULT": fault}
    run = subprocess.run(words, env=environment, capture_output=True, text=True, errors="replace", check=False)
    return run.returncode, run.stdout + run.stderr


def clean(reference):
    """Whether nothing is found without a fault, though all was asked."""
    with tempfile.TemporaryDirectory(prefix="hminify-fuzz-") as keep:
        status, said = fuzzed(reference, "", None, CLEAN_RUNS, keep)
    wanted = ("pairs of trees", "runs of the reference", "longer texts", r"check(?:fragment)? +0 yes", "inputs kept")
    asked = all(re.search(r"[1-9]\d* " + what, said) for what in wanted)
    right = status == 0 and asked and said.endswith(" 0 differences\n")
    print("no fault: %s" % ("nothing is found" if right else "wrong, it says\n" + said), flush=True)
    return right


def finds(reference, fault, kind, most):
    """Whether a fault is found by the right question, and made small."""
    with tempfile.TemporaryDirectory(prefix="hminify-fuzz-") as keep:
        status, said = fuzzed(reference, fault, kind, RUNS, keep)
        found = re.search(r"^fuzz_\d+_\d+: (\w+): .*\n\((\d+) bytes, made of (\d+)", said, re.M)
        cases = [name for name in os.listdir(keep) if name.startswith("found_")]
    right = status == 1 and found is not None and found[1] == kind and int(found[2]) <= most and len(cases) == 1
    runs = re.search(r"(\d+) runs, ", said)
    told = "found by `%s` in %s runs, with %s bytes, made of %s" % (found[1], runs[1], found[2], found[3]) if right else "wrong, it says\n" + said
    print("%s: %s" % (fault, told), flush=True)
    return right


def main(words):
    if "HMINIFY_FUZZ_SCRIPT" in os.environ:
        return faulty(words)
    reference = words[0] if words else REFERENCE
    right = [clean(reference), *[finds(reference, *fault) for fault in FAULTS]]
    print("%d of %d as wanted" % (sum(right), len(right)))
    return 0 if all(right) else 1


if __name__ == "__main__":
    sys.exit(main(sys.argv[1:]))
elif "HMINIFY_FUZZ_SCRIPT" in os.environ:
    # fuzz_runner.py loads this once: the modules of the reference are then there for each run
    sys.path.insert(0, os.path.dirname(os.environ["HMINIFY_FUZZ_SCRIPT"]))
    runpy.run_path(os.environ["HMINIFY_FUZZ_SCRIPT"], run_name="loaded")
