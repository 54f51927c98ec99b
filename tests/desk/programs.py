"""Runs boxd and desk. Every wait has an end."""

import contextlib
import os
import signal
import subprocess

LONGEST = 20  # seconds that any program may take


class Programs:
    """The two programs, in one folder."""

    def __init__(self, folder):
        self.folder = folder

    def run(self, name, *arguments, **more):
        """Runs a program to its end: its status, standard output and standard error."""
        command = [os.path.join(self.folder, name), *map(str, arguments)]
        ended = subprocess.run(command, capture_output=True, text=True, timeout=LONGEST, **more)
        return ended.returncode, ended.stdout, ended.stderr

    def desk(self, port, *questions, **more):
        return self.run("desk", port, *questions, **more)

    @contextlib.contextmanager
    def boxd(self, *options, **more):
        """A box that runs: its port, and what it said on standard error once it has ended."""
        command = [os.path.join(self.folder, "boxd"), *options, "0"]
        piped = {"stdout": subprocess.PIPE, "stderr": subprocess.PIPE, "text": True}
        box = Box(subprocess.Popen(command, **piped, **more))
        try:
            yield box
            box.end()
        finally:
            box.process.kill()
            box.process.communicate(timeout=LONGEST)


class Box:
    def __init__(self, process):
        self.process = process
        self.port = int(process.stdout.readline())
        self.said = None

    def end(self):
        """Ends it as tools/desk does; it must end well."""
        self.process.send_signal(signal.SIGTERM)
        _, self.said = self.process.communicate(timeout=LONGEST)
        assert self.process.returncode == 0, (self.process.returncode, self.said)
