"""A cube of small files in a folder, with journals beside them, as scripts of tests/ and examples/ ask it."""

import subprocess

from servers import CUBE, check

PATIENCE = 120


class Cube:
    """The files of a cube in a folder, and journals beside them."""

    def __init__(self, folder, name, files):
        self.folder = folder / name
        self.folder.mkdir()
        for kind, text in files.items():
            (self.folder / kind).write_text(text)
        self.digest = self.run("check").splitlines()[-1].removeprefix("digest ")

    def path(self, name):
        return self.folder / name

    def files(self, before="", facts="facts"):
        """The words that name its files, behind a front of the options' names, with this fact file."""
        names = {"dims": "dims", "facts": facts, "policy": "policy"}
        return [word for kind, name in names.items() for word in (f"--{before}{kind}", self.path(name))]

    def ends(self, command, *words, given="", facts="facts", **how):
        """Runs a command to its end: its status, what it wrote, and its notes and text."""
        words = [CUBE, command, *self.files(facts=facts), *words]
        done = subprocess.run(words, input=given.encode(), capture_output=True, timeout=PATIENCE, **how)
        return done.returncode, done.stdout.decode(), done.stderr.decode()

    def run(self, command, *words, given="", facts="facts", **how):
        status, written, said = self.ends(command, *words, given=given, facts=facts, **how)
        check(status == 0, f"{command} {words}: status {status}, {said}")
        return written

    def ask(self, journal, *lines, facts="facts"):
        return self.run("ask", "--journal", self.path(journal), given="".join(f"{line}\n" for line in lines), facts=facts)

    def compact(self, journal):
        return self.run("compact", "--journal", self.path(journal))

    def text(self, *lines):
        """The text of a journal of the second version with these lines behind the first."""
        return "".join(f"{line}\n" for line in (f"cube-journal 2 {self.digest}", *lines))
