"""The system calls that a unit of systemd leaves to its service, as a filter of this process and what it starts."""

import ctypes
import re
import shutil
import subprocess

KILL = 0x80000000
ALLOW = 0x7FFF0000
EQUAL, MASKED = 4, 7
AF_INET = 2
WRITE, EXECUTE = 2, 4


class Condition(ctypes.Structure):
    """What an argument of a call is compared with."""

    _fields_ = [("argument", ctypes.c_uint), ("way", ctypes.c_int), ("first", ctypes.c_uint64), ("second", ctypes.c_uint64)]


# The calls that the unit leaves on a condition, with each that will do: RestrictAddressFamilies=AF_INET, and
# MemoryDenyWriteExecute=yes.
CONDITIONS = {
    "socket": [(0, EQUAL, AF_INET, 0)],
    "mmap": [(2, MASKED, WRITE | EXECUTE, kept) for kept in (0, WRITE, EXECUTE)],
    "mprotect": [(2, MASKED, EXECUTE, 0)],
    "pkey_mprotect": [(2, MASKED, EXECUTE, 0)],
}


def load_seccomp():
    """The library that makes filters, or None."""
    try:
        library = ctypes.CDLL("libseccomp.so.2")
    except OSError:
        return None
    library.seccomp_init.restype = ctypes.c_void_p
    library.seccomp_init.argtypes = [ctypes.c_uint32]
    library.seccomp_load.argtypes = [ctypes.c_void_p]
    library.seccomp_rule_add_array.argtypes = [ctypes.c_void_p, ctypes.c_uint32, ctypes.c_int, ctypes.c_uint, ctypes.c_void_p]
    return library


SECCOMP = load_seccomp()


def calls_in(group):
    """The calls of a group of systemd, or of one call its own name."""
    if not group.startswith("@"):
        return {group}
    told = subprocess.run(["systemd-analyze", "syscall-filter", group], stdout=subprocess.PIPE, text=True, check=True).stdout
    words = [line.strip() for line in told.splitlines()[1:]]
    return set().union(*(calls_in(word) for word in words if word and not word.startswith("#")))


def allowed_by(unit):
    """The calls that SystemCallFilter= in this text leaves; none where that cannot be told here."""
    if not shutil.which("systemd-analyze") or not SECCOMP:
        return set()
    allowed = calls_in("@default")
    for line in re.findall(r"^SystemCallFilter=(.*)$", unit, re.MULTILINE):
        calls = set().union(*(calls_in(word) for word in line.removeprefix("~").split()))
        allowed = allowed - calls if line.startswith("~") else allowed | calls
    return allowed


def allow_only(calls):
    """From here on another call is the death of the process."""
    context = SECCOMP.seccomp_init(KILL)
    for call in calls:
        number = SECCOMP.seccomp_syscall_resolve_name(call.encode())
        if number < 0:
            continue
        conditions = CONDITIONS.get(call)
        for condition in conditions or [None]:
            wanted = Condition(*condition) if condition else None
            if SECCOMP.seccomp_rule_add_array(context, ALLOW, number, int(bool(wanted)), ctypes.byref(wanted) if wanted else None) != 0:
                raise OSError(f"no rule for {call}")
    if SECCOMP.seccomp_load(context) != 0:
        raise OSError("no filter")
