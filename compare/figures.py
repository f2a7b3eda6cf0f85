"""figures.py: what the measuring scripts share that write figures for the pictures: versions, the machine, and the file."""
import datetime
import json
import os
import subprocess

HERE = os.path.dirname(os.path.abspath(__file__))


def versions(packages):
    """The versions of Debian's packages."""
    said = subprocess.run(["dpkg-query", "-W", "-f", "${Package} ${Version}\n", *packages], capture_output=True, text=True)
    if said.returncode:
        raise SystemExit("%sapt-get install %s" % (said.stderr, " ".join(packages)))
    return dict(line.split(" ") for line in said.stdout.splitlines())


def processor():
    """The processor's name, as the system tells it, and how many there are."""
    with open("/proc/cpuinfo") as file:
        names = [line.split(":", 1)[1].strip() for line in file if line.startswith("model name")]
    return "%d of %s" % (len(names), names[0] if names else "an unknown processor")


def about(packages):
    """What stands at the head of a file of figures: the day, the processor and the versions of the packages."""
    return {"date": datetime.date.today().isoformat(), "processors": processor(), "versions": versions(packages)}


def put(name, figures):
    """Writes the file of figures of this name beside the scripts."""
    path = os.path.join(HERE, name)
    with open(path, "w") as file:
        json.dump(figures, file, indent=1)
        file.write("\n")


def get(name):
    """The figures of the file of this name."""
    with open(os.path.join(HERE, name)) as file:
        return json.load(file)
