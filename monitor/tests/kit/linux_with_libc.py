"""Runs a program of another Debian with that one's C library, which is put in the place of the
machine's in mounts of its own.

    python3 linux_with_libc.py LOADER LIBRARY PROGRAM WORDS..
"""

import ctypes
import os
import sys

# Where a program of Debian for amd64 looks for its loader and its library.
LOADER, LIBRARY = "/lib64/ld-linux-x86-64.so.2", "/lib/x86_64-linux-gnu/libc.so.6"

# Flags of unshare(2) and mount(2).
NEW_USER, NEW_MOUNTS = 0x10000000, 0x20000
BIND, RECURSIVE, PRIVATE = 0x1000, 0x4000, 0x40000

LIBC = ctypes.CDLL(None, use_errno=True)


def demand(answer, what):
    """Raises an error where a call of the system has failed."""
    if answer != 0:
        number = ctypes.get_errno()
        raise OSError(number, os.strerror(number), what)


def leave_mounts():
    """Gets mounts of its own; who isn't root gets them beside a name space of users in which it is
    the same user."""
    user, group = os.geteuid(), os.getegid()
    if user == 0 and LIBC.unshare(NEW_MOUNTS) == 0:
        return
    demand(LIBC.unshare(NEW_USER | NEW_MOUNTS), "name spaces")
    for name, text in (
        ("setgroups", "deny"),
        ("uid_map", f"{user} {user} 1"),
        ("gid_map", f"{group} {group} 1"),
    ):
        with open(f"/proc/self/{name}", "w", encoding="ascii") as file:
            file.write(text)


def put(file, place):
    """Puts a file in the place of another one."""
    demand(LIBC.mount(file.encode(), os.path.realpath(place).encode(), None, BIND, None), place)


def main(loader, library, program, *words):
    """Becomes the program."""
    leave_mounts()
    demand(LIBC.mount(b"none", b"/", None, RECURSIVE | PRIVATE, None), "/")
    put(loader, LOADER), put(library, LIBRARY)
    os.execv(program, [program, *words])


if __name__ == "__main__":
    try:
        main(*sys.argv[1:])
    except OSError as fault:
        sys.exit(
            f"a kernel of another Debian wants mounts of its own: {fault.filename}: "
            f"{fault.strerror}"
        )
