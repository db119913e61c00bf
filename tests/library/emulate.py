"""Runs a command where programs for 64-bit ARM just run, by qemu, in a namespace of its own: outside of it nothing changes. All runs on one
processor, since qemu doesn't keep ARM's order between several (docs/dev/TESTING.md).

    emulate.py COMMAND ..

It needs Linux 6.7 or later, where a namespace of users has its own table of formats (binfmt_misc), and Debian's qemu-user-static. Root of
the namespace is who runs this; where that is root, all users are mapped, so that a root of Debian can be made and entered.
"""

import ctypes
import os
import sys

QEMU = "/usr/bin/qemu-aarch64-static"
TABLE = "/proc/sys/fs/binfmt_misc"
# The first 20 bytes of an ELF program for 64-bit ARM, and which of their bits count.
HEAD = r"\x7fELF\x02\x01\x01\x00\x00\x00\x00\x00\x00\x00\x00\x00\x02\x00\xb7\x00"
MASK = r"\xff\xff\xff\xff\xff\xff\xff\x00\xff\xff\xff\xff\xff\xff\xff\xff\xfe\xff\xff\xff"
NEW_USERS, NEW_MOUNTS = 0x10000000, 0x00020000
RECURSIVE, PRIVATE = 0x4000, 0x40000


def done(status):
    if status:
        sys.exit(f"emulate: {os.strerror(ctypes.get_errno())}")


def map_users(child, is_root, user, group):
    if not is_root:
        with open(f"/proc/{child}/setgroups", "w", encoding="ascii") as file:
            file.write("deny")
    for name, own in ("uid_map", user), ("gid_map", group):
        with open(f"/proc/{child}/{name}", "w", encoding="ascii") as file:
            file.write("0 0 65536" if is_root else f"0 {own} 1")


def enter(libc, command):
    """Mounts the namespace's table, names qemu in it, and becomes the command."""
    done(libc.mount(None, b"/", None, RECURSIVE | PRIVATE, None))
    done(libc.mount(b"none", TABLE.encode(), b"binfmt_misc", 0, None))
    with open(f"{TABLE}/register", "w", encoding="ascii") as file:
        file.write(f":aarch64:M::{HEAD}:{MASK}:{QEMU}:FPC")
    os.execvp(command[0], command)


def main(command):
    libc = ctypes.CDLL(None, use_errno=True)
    os.sched_setaffinity(0, {max(os.sched_getaffinity(0))})
    is_root, user, group = os.getuid() == 0, os.getuid(), os.getgid()
    entered, let = os.pipe(), os.pipe()
    child = os.fork()
    if child == 0:
        done(libc.unshare(NEW_USERS | NEW_MOUNTS))
        os.write(entered[1], b"x")
        if os.read(let[0], 1) != b"x":
            sys.exit(1)
        if is_root:
            os.setgroups([])
            os.setgid(0)
            os.setuid(0)
        enter(libc, command)
    os.close(entered[1])
    if os.read(entered[0], 1) == b"x":
        map_users(child, is_root, user, group)
        os.write(let[1], b"x")
    return os.waitstatus_to_exitcode(os.waitpid(child, 0)[1])


if __name__ == "__main__":
    if len(sys.argv) < 2:
        sys.exit("usage: emulate.py COMMAND ..")
    sys.exit(main(sys.argv[1:]))
