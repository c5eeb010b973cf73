"""Runs the notebooks of the examples, and writes them with what they print.

    .venv/bin/python -m tests.documents.notebooks      writes all notebooks anew, if what they print should change
"""
from __future__ import annotations

import os
import sys
from pathlib import Path
from typing import Any

import nbformat
from jupyter_client import AsyncKernelManager
from jupyter_client.kernelspec import KernelSpec, KernelSpecManager
from nbclient import NotebookClient

from tests.runs import TOP

NOTEBOOKS = sorted((TOP / "examples").glob("*.ipynb"))
CELL_SECONDS = 300
KERNEL = "-Xfrozen_modules=off", "-m", "ipykernel_launcher", "-f", "{connection_file}"


class ThisPython(KernelSpecManager):
    """Knows one kernel: the Python that runs this, not one that is installed somewhere."""

    def get_kernel_spec(self, kernel_name: str) -> KernelSpec:
        """Returns the kernel."""
        return KernelSpec(argv=[sys.executable, *KERNEL], display_name="Python 3")


def executed(path: Path, program: Path | None = None) -> Any:
    """Returns a notebook as it is after all of its cells have run anew, in its folder."""
    notebook = nbformat.read(path, as_version=4)
    environment = dict(os.environ)
    if program:
        environment["CRNSIM"] = str(program)
    client = NotebookClient(
        notebook,
        km=AsyncKernelManager(kernel_spec_manager=ThisPython()),
        timeout=CELL_SECONDS,
        resources={"metadata": {"path": str(path.parent)}},
        record_timing=False,
    )
    client.owns_km = True  # so that it ends the kernel
    client.execute(env=environment)
    return notebook


def stored(path: Path, notebook: Any) -> None:
    """Writes a notebook without what differs from one machine to another."""
    notebook.metadata = {
        "kernelspec": {
            "display_name": "Python 3",
            "language": "python",
            "name": "python3",
        },
        "language_info": {"name": "python"},
    }
    nbformat.write(notebook, path)


if __name__ == "__main__":
    for path in NOTEBOOKS:
        stored(path, executed(path))
