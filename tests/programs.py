"""Starts the proved programs on a grammar and a text. `tests/run` has built them."""
import os
import resource
import shutil
import subprocess
import tempfile

TOP = os.path.dirname(os.path.dirname(os.path.abspath(__file__)))


def program_file(name):
    """Where rt leaves a program that it has built."""
    return os.path.join(TOP, "crates", name, "out", name)


class Programs:
    """A folder in which the programs run; `stack_kib` is all the stack that they get."""

    def __init__(self, stack_kib=None):
        self.folder = tempfile.mkdtemp()
        self.stack_kib = stack_kib

    def __enter__(self):
        return self

    def __exit__(self, *problem):
        shutil.rmtree(self.folder)

    def run(self, name, grammar, text=b"", seconds=120):
        with open(os.path.join(self.folder, "grammar.peg"), "wb") as file:
            file.write(grammar)
        narrow = None
        if self.stack_kib:
            size = self.stack_kib * 1024
            narrow = lambda: resource.setrlimit(resource.RLIMIT_STACK, (size, size))
        ended = subprocess.run([program_file(name)], cwd=self.folder, input=text, capture_output=True, preexec_fn=narrow, timeout=seconds)
        if ended.returncode != 0:
            return f"ended with status {ended.returncode}".encode()
        return ended.stdout

    def spans(self, grammar, text):
        return self.run("spans", grammar, text)

    def plain(self, grammar):
        return self.run("plain_text", grammar)
