"""Runs commands in bounds, each measured by bench/measured.c. The Python benchmarks share it."""
from __future__ import annotations

import os
import resource
import signal
import subprocess
from functools import partial
from pathlib import Path
from typing import NamedTuple, Optional, Sequence

HERE = Path(__file__).resolve().parent
# The bounds of a run: seconds of processor time, bytes of memory, and bytes that it prints.
SECONDS, MEMORY, PRINTED = 120, 4 << 30, 100 << 20


class Run(NamedTuple):
    """What a run took: seconds of processor time, and MB of memory. The status of one that a signal ended is that of `subprocess`, a
    negative number; if its time was over, the seconds are the bound."""

    seconds: float
    memory: float
    status: int


def compile_measured(room: str) -> None:
    """Compiles bench/measured.c into a directory."""
    compiler = os.environ.get("CC") or "cc"
    words = ["-O2", "-std=c11", "-Wall", "-Wextra", "-Wpedantic", "-Werror", "-o", f"{room}/measured", str(HERE / "measured.c")]
    subprocess.run([compiler, *words], check=True)


def limit(seconds: int, nice: Optional[int]) -> None:
    if nice is not None:
        os.setpriority(os.PRIO_PROCESS, 0, nice)
    resource.setrlimit(resource.RLIMIT_CPU, (seconds, seconds + 1))
    resource.setrlimit(resource.RLIMIT_AS, (MEMORY, MEMORY))
    resource.setrlimit(resource.RLIMIT_FSIZE, (PRINTED, PRINTED))


def measured(command: Sequence[str], seconds: int = SECONDS, nice: Optional[int] = None) -> Optional[Run]:
    """Runs a command in the directory that has the compiled program, with this priority, and measures it. Its output is left in the
    file `printed`, and what it made as `out` or `made.adf` is removed. Returns None if it prints too much."""
    words = ["./measured", "--any", "printed", *command]
    ran = subprocess.run(words, stdin=subprocess.DEVNULL, capture_output=True, preexec_fn=partial(limit, seconds, nice))
    # (deeper than Python's own removal can go)
    subprocess.run(["rm", "-rf", "out", "made.adf"], check=True)
    if ran.returncode != 0:
        # (a core dump sets a bit beside the signal)
        ended = int(ran.stderr.split()[-1], 16) & 0x7F
        return None if ended == signal.SIGXFSZ else Run(seconds, 0, -ended)
    _, took, memory, status = ran.stdout.split()
    return Run(float(took), float(memory) / 1024, int(status))
