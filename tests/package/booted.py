"""A container that is booted by systemd, with this machine's own files below it: what is written in
it is gone with it.

It wants to be the superuser, `systemd-nspawn`, and overlays of the kernel; `why_not` says which of
them is missing.
"""
import contextlib
import ctypes
import os
import shutil
import subprocess
import tempfile

UNIT = """[Unit]
Description=What is tried
After=basic.target
[Service]
Type=oneshot
StandardOutput=file:/tried.out
StandardError=file:/tried.err
ExecStart=/bin/sh /tried.sh
ExecStopPost=/bin/sh -c 'echo $EXIT_STATUS > /tried.status; exec systemctl --no-block poweroff'
"""


def why_not():
    """What is missing for such a container, where something is."""
    if os.getuid() != 0:
        return "not the superuser, who boots a container"
    if shutil.which("systemd-nspawn") is None:
        return "systemd-nspawn is not there"
    try:
        with tempfile.TemporaryDirectory() as room, overlaid(room):
            return None
    except OSError as error:
        return f"no overlay of this machine's files: {error.strerror}"


@contextlib.contextmanager
def mounted(kind, place, options):
    """A file system of this kind at a place, as long as this lasts."""
    libc = ctypes.CDLL(None, use_errno=True)
    if libc.mount(kind.encode(), place.encode(), kind.encode(), 0, options.encode()) != 0:
        raise OSError(ctypes.get_errno(), os.strerror(ctypes.get_errno()))
    try:
        yield
    finally:
        libc.umount2(place.encode(), 2)  # MNT_DETACH


@contextlib.contextmanager
def overlaid(room):
    """This machine's files, with a file system in memory over them, at a path in a folder."""
    with mounted("tmpfs", room, "size=1g,mode=755"):
        for it in ("over", "work", "root"):
            os.mkdir(f"{room}/{it}")
        with mounted(
            "overlay", f"{room}/root", f"lowerdir=/,upperdir={room}/over,workdir={room}/work"
        ):
            yield f"{room}/root"


def run(script, files, seconds=240, take=None):
    """Boots a container that holds these files beside this machine's own, runs a script of the
    shell in it as the superuser, and gives the script's status, output and errors, or None and what
    the boot has said. The files that `take` names are put into the dictionaries there, by their
    names."""
    with tempfile.TemporaryDirectory() as room, overlaid(room) as root:
        for path, content in {
            **files,
            "/tried.sh": script.encode(),
            "/etc/systemd/system/tried.service": UNIT.encode(),
            "/etc/machine-id": b"",
        }.items():
            os.makedirs(os.path.dirname(root + path), exist_ok=True)
            with contextlib.suppress(FileNotFoundError):
                os.unlink(root + path)
            with open(root + path, "wb") as file:
                file.write(content)
        words = [
            "systemd-nspawn",
            "-D",
            root,
            "-M",
            f"oaut-{os.getpid()}",
            "--register=no",
            "--keep-unit",
            "--private-network",
            "--link-journal=no",
        ]
        try:
            boot = subprocess.run(
                [*words, "-b", "systemd.unit=tried.service"],
                stdin=subprocess.DEVNULL,
                stdout=subprocess.PIPE,
                stderr=subprocess.STDOUT,
                timeout=seconds,
            )
            said = boot.stdout
        except subprocess.TimeoutExpired as late:
            said = late.stdout or b""
        for path, taken in (take or {}).items():
            with contextlib.suppress(OSError), open(root + path, "rb") as file:
                taken[path] = file.read()
        try:
            with open(f"{root}/tried.status") as status, open(f"{root}/tried.out") as out, open(
                f"{root}/tried.err"
            ) as err:
                return int(status.read() or -1), out.read(), err.read()
        except (OSError, ValueError):
            return None, said.decode(errors="replace")[-2_000:], ""
