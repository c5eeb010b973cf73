"""Says with what a run works."""
from __future__ import annotations

import contextlib
import os
from dataclasses import dataclass
from pathlib import Path

from .clusters import Scheduler, cluster, identity
from .jobs import Workers, processes


@dataclass(frozen=True)
class Means:
    """What a run works with: so many processes, by default one for each processor, or a Dask scheduler; crnsim at a path,
    if it is not found by itself; and whether it shows how much is done."""

    jobs: int | None = None
    cluster: Scheduler | None = None
    program: str | Path | None = None
    shown: bool = False

    def workers(self, program: str = "") -> contextlib.AbstractContextManager[Workers]:
        """Returns the workers of the Dask scheduler, which run a program, or the processes."""
        if self.cluster:
            return cluster(self.cluster, program)
        return processes(self.jobs or os.cpu_count() or 1)

    def program_digest(self, program: str) -> str:
        """Returns the digest of a program, which may be on the workers of a cluster alone; empty if it is nowhere."""
        digest = identity(program)["crnsim"]
        if self.cluster and not digest:
            with cluster(self.cluster, program) as workers:
                digest = workers.own["crnsim"]
        return digest
