"""Runs the command `timeline`. An older python3 gets as far as to look for a newer one."""
import os
import signal
import sys

if signal.getsignal(signal.SIGINT) is signal.default_int_handler:
    signal.signal(signal.SIGINT, lambda *_: os._exit(130))   # up to where the command takes signals itself

sys.path.insert(0, os.path.dirname(os.path.dirname(os.path.abspath(__file__))))


def newer():
    # type: () -> None
    """Goes on with a newer python3, where one on the path starts; else says what is wanted, and ends."""
    import subprocess

    nothing = open(os.devnull, "w")
    for folder in os.environ.get("PATH", os.defpath).split(os.pathsep):
        for number in range(20, 8, -1):
            path = os.path.join(folder, "python3.%d" % number)
            if os.access(path, os.X_OK) and subprocess.call([path, "-c", ""], stdout=nothing, stderr=nothing) == 0:
                os.execv(path, [path, "-I", "-X", "utf8", os.path.abspath(__file__)] + sys.argv[1:])
    sys.stderr.write("timeline: this is Python %d.%d, and 3.9 or newer is wanted: TIMELINE_PYTHON names one\n" % sys.version_info[:2])
    sys.exit(125)


if __name__ == "__main__":
    if sys.version_info < (3, 9):
        newer()
    from timeline.cli import entry

    sys.exit(entry())
