#!/usr/bin/env python3
"""The package: what ./package makes, what its scripts do where it is installed, and how the unit and the completion work.

Each row says what was tried and what came of it; the first in which something else came ends the script with status 1.
What cannot be tried on this machine is said and left out. Needs Python 3, dpkg-deb and bash alone. The program is the
environment's CUBE, or else the released one.
"""

import hashlib
import os
import pathlib
import pty
import re
import select
import shutil
import signal
import subprocess
import sys
import tempfile
import time
import urllib.error
import urllib.parse
import urllib.request

sys.dont_write_bytecode = True
sys.path.insert(0, str(pathlib.Path(__file__).resolve().parents[2] / "tests"))

from servers import Wrong, address_of, check  # noqa: E402
from calls import allow_only, allowed_by  # noqa: E402
from small_root import SmallRoot, entry_in, make_dpkg_database, run_dpkg  # noqa: E402

TOP = pathlib.Path(__file__).resolve().parent.parent.parent
if "CUBE" in os.environ:
    os.environ["CUBE"] = os.path.abspath(os.environ["CUBE"])
PAY = TOP / "examples/pay"
PATIENCE = 60
MOST_EXPOSED = 20

MODES = {
    "./etc/cube/": "drwxr-x---",
    "./usr/bin/cube": "-rwxr-xr-x",
    "./usr/lib/systemd/system/cube.service": "-rw-r--r--",
    "./usr/lib/sysusers.d/cube.conf": "-rw-r--r--",
    "./usr/share/bash-completion/completions/cube": "-rw-r--r--",
    "./usr/share/zsh/vendor-completions/_cube": "-rw-r--r--",
    "./usr/share/man/man1/cube.1.gz": "-rw-r--r--",
    "./usr/share/doc/cube/copyright": "-rw-r--r--",
    "./usr/share/cube/page/index.html": "-rw-r--r--",
}
COMMANDS = "draft check sum ask serve replay advise why witness twin audit compact carry demo"

# Words before the cursor, and what they are completed to.
COMPLETIONS = {
    ("cube", ""): f"{COMMANDS} --help --version",
    ("cube", "s"): "sum serve",
    ("cube", "none", ""): "",
    ("cube", "sum", ""): "--help --facts",
    ("cube", "demo", "--number", "1", ""): "--size",
    ("cube", "demo", "--number", "--size", ""): "--size",
    ("cube", "check", "--dims", "di"): "dims.toml",
    ("cube", "check", "--dims", ""): "dims.toml facts.csv policy.toml",
    ("cube", "serve", "--policy", "p", "--"): "--address --dims --facts --idle --journal --requests",
    ("cube", "serve", "--groups", "g", "--"): "--address --dims --facts --idle --journal --requests",
    ("cube", "serve", "--address", "127.0.0.1", ":", ""): "",
    ("cube", "draft", "--levels", "time", "=", ""): "",
    ("cube", "serve", "--address", ""): "",
    ("cube", "why", "--query", ""): "",
    ("cube", "draft", "--levels", "time", "=", "month", "--"): "--facts --levels --members --policy --skip",
    ("cube", "draft", "--policy", ""): "--facts --levels --members --skip",
}
# What is typed, and what stands there then.
TYPED = {"cube ser\t": "cube serve ", "cube carry --from-j\t": "cube carry --from-journal ", "cube check --dims di\t": "cube check --dims dims.toml "}

PYTHON = sys.executable, "-c"
# What runs under the filter of the unit, and what does not.
ALLOWED = [
    ("true",),
    (*PYTHON, "import socket; socket.socket(socket.AF_INET)"),
    (*PYTHON, "import mmap; mmap.mmap(-1, 9, prot=mmap.PROT_READ | mmap.PROT_WRITE)"),
]
FORBIDDEN = [
    ("nice", "true"),
    ("chown", "0:0", "/"),
    ("chroot", "/", "true"),
    (*PYTHON, "import socket; socket.socket(socket.AF_UNIX)"),
    (*PYTHON, "import mmap; mmap.mmap(-1, 9, prot=mmap.PROT_WRITE | mmap.PROT_EXEC)"),
]


def run(*words, **how):
    return subprocess.run(words, stdin=subprocess.DEVNULL, capture_output=True, text=True, timeout=PATIENCE, **how)


def output(*words, **how):
    done = run(*words, **how)
    check(done.returncode == 0, f"{words[0]}: status {done.returncode}, {done.stderr}")
    return done.stdout


class LeftOut(Exception):
    """Something cannot be tried on this machine."""


class Package:
    """A package that was made, and its files."""

    def __init__(self, folder):
        self.file = make(folder)
        self.files = folder / "files"
        output("dpkg-deb", "-R", self.file, self.files)
        self.program = self.path("usr/bin/cube")

    def path(self, name):
        return self.files / name

    def field(self, name):
        return output("dpkg-deb", "-f", self.file, name).strip()


def make(folder, **how):
    folder.mkdir()
    return pathlib.Path(output(TOP / "package", folder, **how).strip())


def the_files(package, _):
    listed = [line.split() for line in output("dpkg-deb", "-c", package.file).splitlines()]
    modes = {fields[5]: fields[0] for fields in listed}
    for name, mode in MODES.items():
        check(modes.get(name) == mode, f"{name}: {modes.get(name)} and not {mode}")
    for fields in listed:
        check(fields[1] == "root/root", f"{fields[5]} is of {fields[1]}")
        check(fields[5] == "./etc/cube/" or fields[0][1:] in ("rwxr-xr-x", "rw-r--r--"), f"{fields[5]}: {fields[0]}")
    check([name for name in modes if name.startswith("./etc/")] == ["./etc/", "./etc/cube/"], "more than a folder in /etc")
    for name in ("postinst", "prerm", "postrm"):
        check(package.path(f"DEBIAN/{name}").stat().st_mode & 0o777 == 0o755, f"{name} cannot be run")
    given = pathlib.Path(os.environ.get("CUBE", TOP / "release/cube"))
    check(package.program.read_bytes() == given.read_bytes(), "another program")
    check(f"cube {package.field('Version')}\n" == output(package.program, "--version"), "another version")
    return f"{len(listed)} files and folders, all of root; /etc/cube is closed; the program is the one that was given"


def the_digests(package, _):
    lines = package.path("DEBIAN/md5sums").read_text().splitlines()
    told = {name: digest for digest, name in (line.split("  ", 1) for line in lines)}
    files = [path for path in package.files.rglob("*") if path.is_file() and "DEBIAN" not in path.parts]
    digests = {str(path.relative_to(package.files)): hashlib.md5(path.read_bytes()).hexdigest() for path in files}
    check(told == digests, "the digests are not those of the files")
    return "the digests are those of the files"


def made_again(package, folder):
    # Names that a shell would take for words of the help.
    for name in ("p", "FILE", "--facts"):
        (folder / name).touch()
    other = make(folder / "again", umask=0o077, cwd=folder)
    check(other.read_bytes() == package.file.read_bytes(), "made again it is another package")
    return "made again elsewhere, by somebody whose files nobody else reads, it is the same byte for byte"


def the_page(package, folder):
    text = (TOP / "packaging/cube.1").read_text()
    check_page = TOP / "packaging/check", package.program
    output(*check_page)
    short = folder / "short.1"
    for lost in (r'\.BI "cube sum .*\n', r"\\-\\-groups ", r"\.BI \\-\\-idle .*\n", r"cube \\-\\-version"):
        short.write_text(re.sub(lost, "", text))
        check(short.read_text() != text, f"{lost} is not in the page")
        check(run(*check_page, short).returncode == 1, f"a page without {lost} passes")
    return "the manual page has each command and option of the help; a page that lacks one is told"


def another_help(package, folder):
    program = folder / "cube"
    program.write_text(f'#!/bin/sh\n"{package.program}" "$@"\n[ "$1" != --help ] || echo "cube knit --wool FILE [--rows N].."\n')
    program.chmod(0o755)
    done = run(TOP / "package", folder, env={**os.environ, "CUBE": str(program)})
    check(done.returncode == 1 and "the page lacks knit --wool" in done.stderr, f"status {done.returncode}: {done.stderr}")
    check(not list(folder.glob("*.deb")), "a package was made")
    file = folder / "completion"
    file.write_text(output(TOP / "packaging/completion", program, "bash"))
    for words, completed in {("k",): "knit", ("knit", "--rows", "1", "--"): "--rows --wool"}.items():
        check(complete(file, ("cube", *words)) == sorted(completed.split()), f"{words} is not completed")
    return "a command that is new in the help is completed, and nothing is packed until the page has it"


def complete(file, words):
    """What bash completes the last word to."""
    script = 'source "$0"; COMP_WORDS=("$@"); COMP_CWORD=$(($# - 1)); _cube; printf "%s\\n" "${COMPREPLY[@]}"'
    return sorted(output("bash", "--norc", "-c", script, file, *words, cwd=PAY).split())


def in_bash(package, _):
    file = package.path("usr/share/bash-completion/completions/cube")
    for words, completed in COMPLETIONS.items():
        found = complete(file, words)
        check(found == sorted(completed.split()), f"{' '.join(words)}: {found}")
    return f"bash completes {len(COMPLETIONS)} beginnings: commands, options that are not given yet, names of files"


def in_zsh(package, _):
    if not shutil.which("zsh"):
        raise LeftOut("there is no zsh")
    folder = package.path("usr/share/zsh/vendor-completions")
    output("zsh", "-n", folder / "_cube")
    for keys, line in TYPED.items():
        type_to_zsh(f"fpath=({folder} $fpath); autoload -Uz compinit; compinit -D -u; setopt no_beep; PS1='rea''dy> '\n", keys, line)
    return f"zsh completes {len(TYPED)} beginnings that are typed to it"


def type_to_zsh(before, keys, line):
    child, terminal = pty.fork()
    if child == 0:
        os.chdir(PAY)
        os.execvpe("zsh", ["zsh", "-f", "-i"], {**os.environ, "TERM": "dumb", "COLUMNS": "200", "PS1": "> "})
    try:
        os.write(terminal, before.encode())
        wait_for(terminal, "ready> ")
        os.write(terminal, keys.encode())
        wait_for(terminal, line)
    finally:
        os.kill(child, signal.SIGKILL)
        os.waitpid(child, 0)
        os.close(terminal)


def wait_for(terminal, text):
    """Reads until this is on the terminal."""
    seen = ""
    end = time.monotonic() + PATIENCE
    while text not in seen:
        check(select.select([terminal], [], [], max(0, end - time.monotonic()))[0], f"{text!r} does not come, but {seen!r}")
        seen += os.read(terminal, 4_096).decode()


def the_licences(package, _):
    text = package.path("usr/share/doc/cube/copyright").read_text()
    own = {path.name for path in (TOP / "crates").iterdir()}
    needs = {word for line in (TOP / "crates.txt").read_text().splitlines() for word in line.split("#")[0].partition(":")[2].split()} - own
    check(len(needs) > 9, f"crates.txt has only {needs} from elsewhere")
    named = {name.removesuffix("/*") for line in re.findall(r"^Files: (.*)$", text, re.MULTILINE) for name in line.split()}
    check(needs < named, f"no licence of {needs - named} is told")
    licences = {word for line in re.findall(r"^License: (.*)$", text, re.MULTILINE) for word in re.split(r" (?:or|and) ", line)}
    for licence in licences:
        check(re.search(rf"^License: {re.escape(licence)}\n ", text, re.MULTILINE), f"no text of {licence}")
    return f"copyright names the {len(needs)} libraries of crates.txt, and has the text of each licence"


def the_unit(package, folder):
    if not shutil.which("systemd-analyze"):
        raise LeftOut("there is no systemd-analyze")
    unit = package.path("usr/lib/systemd/system/cube.service")
    copy = folder / "cube.service"
    copy.write_text(unit.read_text().replace("ExecStart=/usr/bin/cube", f"ExecStart={package.program}"))
    check(copy.read_text() != unit.read_text(), "the unit does not start /usr/bin/cube")
    done = run("systemd-analyze", "verify", copy)
    check(done.returncode == 0 and "cube.service" not in done.stderr, f"verify: {done.stderr}")
    done = run("systemd-analyze", "security", "--offline=true", f"--threshold={MOST_EXPOSED}", "--no-pager", copy)
    exposure = re.search(r"exposure level for cube.service: ([0-9.]+)", done.stdout)
    if not exposure:
        raise LeftOut("systemd-analyze cannot judge a unit that is not installed")
    check(done.returncode == 0, f"the exposure is {exposure[1]}")
    return f"systemd-analyze finds no fault in the unit, and an exposure of {exposure[1]}"


def under_the_filter(package, folder):
    unit = package.path("usr/lib/systemd/system/cube.service").read_text()
    allowed = allowed_by(unit)
    if not allowed:
        raise LeftOut("there is no systemd-analyze, or no libseccomp")

    def filtered():
        allow_only(allowed)

    for words in ALLOWED:
        check(run(*words, preexec_fn=filtered).returncode == 0, f"{words} does not run under the filter")
    for words in FORBIDDEN:
        done = run(*words, preexec_fn=filtered)
        check(done.returncode == -signal.SIGSYS, f"{words}: status {done.returncode} under the filter")
    words = [package.program, "serve", *words_of(unit, folder)]
    with subprocess.Popen(words, stdin=subprocess.DEVNULL, stderr=subprocess.PIPE, text=True, preexec_fn=filtered) as server:
        try:
            host, port = address_of(server)
            for query, status in (("slice pay by region.area where time.month=Jan", 200), ("slice pay by grade.grade where time.month=Jan", 403)):
                check(ask(host, port, query) == status, f"{query}: not {status}")
            check(server.poll() is None, "the server ended by itself")
        finally:
            server.kill()
    return f"under the {len(allowed)} calls that the unit leaves, each other one being death, the cube is served"


def words_of(unit, folder):
    """The words behind `serve` in the unit, over the files of examples/pay, on a free port."""
    command = re.search(r"^ExecStart=\S+ serve((?:.*\\\n)*.*)$", unit, re.MULTILINE)[1].replace("\\\n", " ")
    for before, behind in (("/etc/cube", str(PAY)), ("/var/lib/cube", str(folder)), (":8080", ":0")):
        check(before in command, f"no {before} in the unit")
        command = command.replace(before, behind)
    return command.split()


def ask(host, port, query):
    try:
        with urllib.request.urlopen(f"http://{host}:{port}/v1/query?q={urllib.parse.quote(query)}", timeout=PATIENCE) as reply:
            return reply.status
    except urllib.error.HTTPError as refusal:
        return refusal.code


def small_root(folder, *tools, **how):
    needed = "dpkg", "ldd", *tools
    if os.geteuid() != 0 or not all(map(shutil.which, needed)):
        raise LeftOut(f"to install takes root, and {', '.join(needed)}")
    return SmallRoot(folder, *tools, **how)


def succeed(root, *words):
    status, said = root.dpkg(*words)
    check(status == 0, f"dpkg {words}: status {status}, {said}")
    return said


def closed_to_group(root):
    """Whether /etc/cube is root's and the group's alone."""
    told = root.path("etc/cube").stat()
    return (told.st_mode & 0o7777, told.st_uid, told.st_gid) == (0o750, 0, int(root.entry("group")[2]))


def check_calls(root, *expected):
    calls = root.calls()
    check(calls == list(expected), f"called {calls} and not {list(expected)}")


RELOAD = "systemctl daemon-reload"


def under_systemd(package, folder):
    root = small_root(folder / "root", "systemd-sysusers", "userdel", recorders=("systemctl", "deb-systemd-invoke"), systemd=True)
    succeed(root, "-i", package.file)
    check_calls(root, RELOAD)
    check(root.entry("passwd")[5:] == ["/var/lib/cube", "/usr/sbin/nologin"], f"the user is {root.entry('passwd')}")
    check(closed_to_group(root), "others may read /etc/cube")
    check(not root.path("etc/systemd").exists() and not root.path("var/lib/cube").exists(), "something was enabled or begun")
    user = root.entry("passwd")
    root.path("etc/cube/facts.csv").write_text("facts")
    root.path("etc/cube").chmod(0o777)
    succeed(root, "-i", package.file)
    check_calls(root, RELOAD, "deb-systemd-invoke try-restart cube.service")
    check(root.entry("passwd") == user and closed_to_group(root), "an upgrade changed the user, or left /etc/cube open")
    succeed(root, "-r", "cube")
    check_calls(root, "deb-systemd-invoke stop cube.service", RELOAD)
    check(not root.path("usr/bin/cube").exists() and root.entry("passwd") == user, "the program is there, or the user is not")
    succeed(root, "-i", package.file)
    check(root.path("etc/cube/facts.csv").read_text() == "facts" and closed_to_group(root), "the facts are not there as before")
    return "systemd: an installation makes the user and starts nothing, an upgrade restarts what runs, a removal stops it"


def without_invoke(package, folder):
    root = small_root(folder / "root", recorders=("systemctl", "systemd-sysusers"), systemd=True)
    for _ in range(2):
        succeed(root, "-i", package.file)
    check_calls(root, "systemd-sysusers cube.conf", RELOAD, "systemd-sysusers cube.conf", RELOAD, "systemctl try-restart cube.service")
    succeed(root, "-r", "cube")
    check_calls(root, "systemctl stop cube.service", RELOAD)
    return "without deb-systemd-invoke systemctl is called in its place"


def where_a_call_fails(package, folder):
    root = small_root(folder / "root", recorders=("systemctl", "systemd-sysusers"), systemd=True)
    with root.path("usr/bin/systemctl").open("a") as fake:
        fake.write("exit 1\n")
    succeed(root, "-i", package.file)
    said = succeed(root, "-i", package.file)
    check("cube: the service did not start again" in said, said)
    succeed(root, "-P", "cube")
    return "where the service does not start again that is said, and the package is whole"


def without_systemd(package, folder):
    root = small_root(folder / "root", "useradd", "userdel", recorders=("systemctl",))
    for _ in range(2):
        succeed(root, "-i", package.file)
        check(root.entry("passwd")[5:] == ["/var/lib/cube", "/usr/sbin/nologin"], f"the user is {root.entry('passwd')}")
        check(closed_to_group(root), "others may read /etc/cube")
    succeed(root, "-r", "cube")
    check_calls(root)
    return "without systemd useradd makes the user, and systemctl is not called"


def the_purge(package, folder):
    root = small_root(folder / "root", "useradd", "userdel", "groupdel")
    succeed(root, "-i", package.file)
    root.make_folder("var/lib/cube")
    root.path("var/lib/cube/journal").write_text("what was told")
    said = succeed(root, "-P", "cube")
    check("there are files in /var/lib/cube, so they stay, and the user cube with them\n" in said, said)
    check(root.path("var/lib/cube/journal").read_text() == "what was told" and root.entry("passwd"), "a file or the user is gone")
    root.path("var/lib/cube/journal").unlink()
    succeed(root, "-i", package.file)
    root.path("etc/cube/facts.csv").write_text("facts")
    said = succeed(root, "-P", "cube")
    check("there are files in /etc/cube, so they stay" in said and root.path("etc/cube/facts.csv").exists(), said)
    root.path("etc/cube/facts.csv").unlink()
    succeed(root, "-i", package.file)
    root.make_folder("etc/systemd/system/multi-user.target.wants")
    link = root.path("etc/systemd/system/multi-user.target.wants/cube.service")
    link.symlink_to("/usr/lib/systemd/system/cube.service")
    said = succeed(root, "-P", "cube")
    check("stay" not in said and not link.is_symlink(), said)
    check(not any(root.path(name).exists() for name in ("etc/cube", "var/lib/cube")), "a folder is left")
    check(not root.entry("passwd") and not root.entry("group"), "the user is left")
    return "a purge leaves folders with files and the user, and says so; without files it leaves nothing"


def somebody_else(package, folder):
    root = small_root(folder / "root", "useradd", "userdel")
    person = "cube:x:1000:1000:Anna Cube:/srv/anna:/bin/sh\n"
    with root.path("etc/passwd").open("a") as file:
        file.write(person)
    with root.path("etc/group").open("a") as file:
        file.write("cube:x:1000:\n")
    succeed(root, "-i", package.file)
    succeed(root, "-P", "cube")
    check(person in root.path("etc/passwd").read_text(), "a person lost the account")
    return "a person with the account cube keeps it behind a purge"


def nothing_makes_users(package, folder):
    root = small_root(folder / "root")
    said = succeed(root, "-i", package.file)
    check("the user and the group cube are still to be made" in said, said)
    check(root.path("etc/cube").stat().st_mode & 0o7777 == 0o750, "others may read /etc/cube")
    succeed(root, "-P", "cube")
    return "where nothing makes users that is said, and /etc/cube is root's alone"


def an_empty_root(package, folder):
    if os.geteuid() != 0 or not shutil.which("dpkg") or not shutil.which("systemd-sysusers"):
        raise LeftOut("to install takes root, dpkg and systemd-sysusers")
    root = folder / "root"
    root.mkdir()
    make_dpkg_database(root)
    users = pathlib.Path("/etc/passwd").read_bytes()
    for words in (["-i", package.file], ["-i", package.file]):
        status, said = run_dpkg(root, "--force-script-chrootless", *words)
        check(status == 0, f"status {status}: {said}")
    told = (root / "etc/cube").stat()
    check((told.st_mode & 0o7777, told.st_gid) == (0o750, int(entry_in(root, "group")[2])), "others may read /etc/cube")
    check(entry_in(root, "passwd")[5] == "/var/lib/cube", "there is no user in the root")
    check(pathlib.Path("/etc/passwd").read_bytes() == users, "this machine got a user")
    status, said = run_dpkg(root, "--force-script-chrootless", "-P", "cube")
    check(status == 0 and not (root / "etc/cube").exists(), f"status {status}: {said}")
    return "into an empty root it is installed from beside, with its user there and not here"


ACTS = (the_files, the_digests, made_again, the_page, another_help, in_bash, in_zsh, the_licences, the_unit, under_the_filter)
INSTALLED = (under_systemd, without_invoke, where_a_call_fails, without_systemd, the_purge, somebody_else, nothing_makes_users, an_empty_root)


def try_act(act, package, folder):
    folder.mkdir()
    try:
        return act(package, folder)
    except LeftOut as left_out:
        return f"left out: {act.__name__.replace('_', ' ')}: {left_out}"


def main():
    with tempfile.TemporaryDirectory() as name:
        try:
            folder = pathlib.Path(name)
            package = Package(folder / "package")
            for act in (*ACTS, *INSTALLED):
                print(try_act(act, package, folder / act.__name__), flush=True)
        except (Wrong, OSError, subprocess.SubprocessError) as wrong:
            print(f"run.py: {wrong}", file=sys.stderr)
            sys.exit(1)


if __name__ == "__main__":
    main()
