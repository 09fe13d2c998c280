"""What the commands of this folder share: the program, and its measured calls."""

import os
import platform
import subprocess
import sys
import time

HERE = os.path.dirname(os.path.realpath(__file__))
DOCS = os.path.join(HERE, "..", "docs")
PROGRAM = os.environ.get("HYBRIDGC", os.path.join(HERE, "..", "crates", "hybridgc", "out", "hybridgc"))
COMMAND = os.path.join("bench", os.path.basename(sys.argv[0]))


def need():
    """Ends with a message if the program is missing."""
    if not os.access(PROGRAM, os.X_OK):
        sys.exit(f"{COMMAND}: there is no program {PROGRAM}; ./hybridgc or rt ci builds it, and HYBRIDGC=PATH names another one")


def usage():
    """Returns the program's usage, which names its modes and options."""
    return subprocess.run([PROGRAM], stdin=subprocess.DEVNULL, capture_output=True, text=True).stderr


def processor():
    """Returns the processor's name, or the machine's kind if the system doesn't say."""
    try:
        with open("/proc/cpuinfo") as lines:
            for line in lines:
                if line.startswith("model name"):
                    return line.split(":", 1)[1].strip()
    except OSError:
        pass
    return platform.machine()


def machine(times):
    """Returns a line that says where and when something was measured, and how much other work there was."""
    load = os.getloadavg()[0]
    return f"{platform.node()}, {processor()}, {os.cpu_count()} processors, load {load:.1f}; {time.strftime('%Y-%m-%d')}; {times} of each"


def write(words, source, target):
    """Writes the output of one call to a file."""
    with open(source, "rb") as stdin, open(target, "wb") as stdout:
        subprocess.run(words, stdin=stdin, stdout=stdout, check=True)


def measure(words, source):
    """Returns the CPU seconds, the wall seconds and the peak memory in MB of one call, whose output is thrown away."""
    with open(source, "rb") as stdin, open(os.devnull, "wb") as nowhere:
        began = time.monotonic()
        child = subprocess.Popen(words, stdin=stdin, stdout=nowhere)
        _, status, used = os.wait4(child.pid, 0)
        wall = time.monotonic() - began
    child.returncode = os.waitstatus_to_exitcode(status)
    if child.returncode != 0:
        sys.exit(f"{COMMAND}: {' '.join(words)} ended with {child.returncode}")
    return used.ru_utime + used.ru_stime, wall, used.ru_maxrss / 1024
