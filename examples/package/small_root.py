"""A root of a few tools, in which dpkg installs a package: what its scripts call, and what they leave."""

import pathlib
import re
import shutil
import subprocess

PATIENCE = 60
TOOLS = "sh", "grep", "cut", "chown", "chmod", "rm", "rmdir", "getent"
FILES = {"etc/passwd": "root:x:0:0::/root:/bin/sh\n", "etc/group": "root:x:0:\n", "dev/null": ""}
RECORDER = '#!/bin/sh\necho "${0##*/} $*" >> /calls\n'


class SmallRoot:
    """A folder that dpkg takes for the root of a machine."""

    def __init__(self, folder, *tools, recorders=(), systemd=False):
        self.folder = folder
        for name in ("bin", "sbin", "lib", "lib64"):
            self.make_folder(f"usr/{name}")
            (folder / name).symlink_to(f"usr/{name}")
        make_dpkg_database(folder)
        for name in (*TOOLS, *tools):
            self.copy_tool(shutil.which(name))
        for name in recorders:
            self.path(f"usr/bin/{name}").write_text(RECORDER)
            self.path(f"usr/bin/{name}").chmod(0o755)
        for name, text in FILES.items():
            self.make_folder(pathlib.Path(name).parent)
            self.path(name).write_text(text)
        if systemd:
            self.make_folder("run/systemd/system")

    def path(self, name):
        return self.folder / name

    def make_folder(self, name):
        self.path(name).mkdir(parents=True, exist_ok=True)

    def copy_tool(self, tool):
        """A program of this machine, with the libraries that it needs."""
        told = subprocess.run(["ldd", tool], stdout=subprocess.PIPE, text=True, check=True).stdout
        for name in (tool, *re.findall(r"(/\S+) \(0x", told)):
            self.make_folder(pathlib.Path(name).parent.relative_to("/"))
            shutil.copy(name, self.path(name[1:]))

    def dpkg(self, *words):
        return run_dpkg(self.folder, *words)

    def calls(self):
        """What was called since this was last asked."""
        record = self.path("calls")
        lines = record.read_text().splitlines() if record.exists() else []
        record.unlink(missing_ok=True)
        return lines

    def entry(self, name):
        return entry_in(self.folder, name)


def make_dpkg_database(folder):
    for name in ("info", "updates"):
        (folder / "var/lib/dpkg" / name).mkdir(parents=True)
    (folder / "var/lib/dpkg/status").write_text("")


def run_dpkg(folder, *words, **how):
    """dpkg over a root: its status, and what it and the scripts said."""
    words = ["dpkg", f"--root={folder}", "--force-depends", "--force-bad-path", "--log=/dev/null", *words]
    done = subprocess.run(words, stdin=subprocess.DEVNULL, capture_output=True, text=True, timeout=PATIENCE, **how)
    return done.returncode, done.stdout + done.stderr


def entry_in(folder, name):
    """The fields of cube in passwd or group, or none."""
    lines = [line.split(":") for line in (folder / "etc" / name).read_text().splitlines() if line.startswith("cube:")]
    return lines[0] if len(lines) == 1 else lines
