"""Shared by the scripts of bench/ in Python: the program of the sources as they are, and what whole scripts take of it."""
from __future__ import annotations

import os
import subprocess
import tempfile
from pathlib import Path
from typing import Callable, Iterable, NamedTuple

TOP = Path(__file__).resolve().parents[1]


def program() -> str:
    """Returns the program of the sources as they are: bin/vemodel finds or builds it, and is itself a script."""
    subprocess.run([TOP / "bin/vemodel", "run"], stdin=subprocess.DEVNULL, check=True)
    told = ["sh", "-c", 'top=$0; . "$top/tools/sources.sh"; taken program', str(TOP)]
    return subprocess.run(told, stdout=subprocess.PIPE, text=True, check=True).stdout.strip()


class Ran(NamedTuple):
    """What a whole script took: seconds of the processor, the greatest memory in MiB and the exit status; and how many replies came, of
    how many bytes together, and how the last one begins."""

    seconds: float
    memory: int
    status: int
    replies: int
    size: int
    last: str


def ran(path: str, script: Callable[[], Iterable[bytes]]) -> Ran:
    """Runs the program at this path on a script from a file, into a file.

    Another process makes and writes the script: the memory of who starts a program counts as the program's, too, so it is to be little.
    """
    with tempfile.TemporaryFile() as lines, tempfile.TemporaryFile() as replies:
        writer = os.fork()
        if writer == 0:
            lines.writelines(script())
            lines.flush()
            os._exit(0)
        if os.waitpid(writer, 0)[1] != 0:
            raise ChildProcessError("the script can't be written")
        lines.seek(0)
        process = subprocess.Popen([path, "run"], stdin=lines, stdout=replies, stderr=subprocess.DEVNULL)
        _, status, used = os.wait4(process.pid, 0)
        process.returncode = os.waitstatus_to_exitcode(status)
        count, last = 0, b""
        replies.seek(0)
        for reply in replies:
            count, last = count + 1, reply[:24]
        seconds, memory = used.ru_utime + used.ru_stime, used.ru_maxrss // 1024
        return Ran(seconds, memory, process.returncode, count, replies.tell(), last.decode(errors="replace").strip())
