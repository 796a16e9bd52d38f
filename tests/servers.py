"""The program as the scripts of tests/ and examples/ start it: CUBE of the environment, or the one that stands above."""

import contextlib
import os
import subprocess

HERE = os.path.dirname(os.path.abspath(__file__))
CUBE = os.environ.get("CUBE", os.path.join(HERE, "..", "cube"))


class Wrong(Exception):
    """Something is not as it should be."""


def check(holds, text):
    if not holds:
        raise Wrong(text)


def build():
    """Has the program built where it is not, in whatever time that takes."""
    subprocess.run([CUBE, "--version"], stdin=subprocess.DEVNULL, stdout=subprocess.DEVNULL, check=True)


def start(words, **how):
    """Starts `serve` on a free port of this machine."""
    words = [CUBE, "serve", *words, "--address", "127.0.0.1:0"]
    return subprocess.Popen(words, stdin=subprocess.DEVNULL, stderr=subprocess.PIPE, text=True, **how)


def address_of(server):
    """Where a server listens, once it does."""
    notes = []
    for line in server.stderr:
        if line.startswith("listening on "):
            host, port = line.removeprefix("listening on ").split(":")
            return host, int(port)
        notes.append(line)
    raise Wrong(f"the server ended with {server.wait()}: {''.join(notes)}")


@contextlib.contextmanager
def serving(words, **how):
    """A server, for as long as it is asked; its address."""
    with start(words, **how) as server:
        try:
            yield address_of(server)
            check(server.poll() is None, "the server ended by itself")
        finally:
            server.kill()
