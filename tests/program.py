"""The program, run on a job: its three texts are put into a folder of their own."""
import resource
import socket
import subprocess
import tempfile
from pathlib import Path

from reckoning.__main__ import FILES
from tests.places import PROGRAM


def put(job, folder):
    """Writes the three texts of a job into a folder, which is made where it is not there."""
    Path(folder).mkdir(parents=True, exist_ok=True)
    for name, text in zip(FILES, job):
        (Path(folder) / name).write_bytes(text)


def run(job, stack=None, command=(PROGRAM,)):
    """What the program, or another command, prints for a job in the folder that it is run in."""
    limit = (lambda: resource.setrlimit(resource.RLIMIT_STACK, (stack, stack))) if stack else None
    with tempfile.TemporaryDirectory() as folder:
        put(job, folder)
        return subprocess.run(command, cwd=folder, stdout=subprocess.PIPE, stderr=subprocess.DEVNULL, check=True, preexec_fn=limit).stdout


def told(job, command=(PROGRAM,)):
    """What the program, or another command, writes on standard error for a job, each write by itself."""
    ours, theirs = socket.socketpair(socket.AF_UNIX, socket.SOCK_SEQPACKET)
    with tempfile.TemporaryDirectory() as folder, ours:
        put(job, folder)
        with theirs:
            subprocess.run(command, cwd=folder, stdout=subprocess.DEVNULL, stderr=theirs.fileno(), check=True)
        return list(iter(lambda: ours.recv(1 << 16), b""))
