"""What a run of a program costs."""
import hashlib
import os
import resource
import subprocess
import tempfile
from typing import NamedTuple

TIME = '/usr/bin/time'  # GNU time, a small process, so that the memory is that of the program, and not of Python


class Measured(NamedTuple):
    status: int
    seconds: float
    memory: float  # megabytes, at most
    size: int  # bytes of the output
    digest: str = ''  # of the output


def measured(words: list[str], seconds: int, given: dict[str, str] | None = None) -> Measured:
    """Runs a program, which is ended after so many seconds of processor time; then its status is -9."""
    def limit() -> None:
        resource.setrlimit(resource.RLIMIT_CPU, (seconds, seconds))

    with tempfile.TemporaryFile() as output, tempfile.NamedTemporaryFile('r') as note:
        child = subprocess.Popen([TIME, '-q', '-f', '%M', '-o', note.name, *words], stdin=subprocess.DEVNULL,
                                 stdout=output, preexec_fn=limit, env={**os.environ, **(given or {})})
        _, status, used = os.wait4(child.pid, 0)
        child.returncode = os.waitstatus_to_exitcode(status)
        memory = int(note.read().split()[-1]) / 1024
        digest, size = hashlib.sha256(), 0
        output.seek(0)
        while part := output.read(1 << 20):
            digest.update(part)
            size += len(part)
    code = child.returncode
    return Measured(128 - code if code > 128 else code, used.ru_utime + used.ru_stime, memory, size, digest.hexdigest())
