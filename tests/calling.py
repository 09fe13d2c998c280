"""Calls of tools: in a process of their own, and in that of the tests, which takes a tenth of the time."""

from __future__ import annotations

import contextlib
import importlib.machinery
import importlib.util
import io
import os
import subprocess
import sys
import tempfile
import unittest.mock

ROOT = os.path.dirname(os.path.dirname(os.path.realpath(__file__)))
TOOLS = os.path.join(ROOT, "tools")
sys.path.insert(0, TOOLS)
# No call takes longer.
SECONDS = 60


def run(name: str, *words: str, given: bytes = b"", **env: str) -> tuple[int, bytes, str]:
    """Runs a tool as a process. Returns its status, what it wrote, and what it said on standard error."""
    settings = {**os.environ, "COLUMNS": "100", **env}
    command = [sys.executable, "-B", os.path.join(TOOLS, name), *words]
    done = subprocess.run(command, input=given, capture_output=True, timeout=SECONDS, env=settings)
    return done.returncode, done.stdout, done.stderr.decode(errors="backslashreplace")


def tool(name):
    """A tool, as a module."""
    loader = importlib.machinery.SourceFileLoader(name, os.path.join(TOOLS, name))
    loaded = importlib.util.module_from_spec(importlib.util.spec_from_loader(name, loader))
    loader.exec_module(loaded)
    return loaded


def call(name: str, *words: str, source: bytes = b"") -> tuple[int, str, str]:
    """Calls a tool; the word `-` names a file with the source. Returns its status, what it prints and what it says on standard error."""
    with contextlib.ExitStack() as stack:
        file = stack.enter_context(tempfile.NamedTemporaryFile())
        file.write(source)
        file.flush()
        words = [file.name if word == "-" else word for word in words]
        out = stack.enter_context(contextlib.redirect_stdout(io.StringIO()))
        err = stack.enter_context(contextlib.redirect_stderr(io.StringIO()))
        stack.enter_context(unittest.mock.patch("sys.argv", [os.path.join(TOOLS, name), *words]))
        try:
            tool(name).main(words)
            status = 0
        except SystemExit as ended:
            status = int(ended.code or 0)
        return status, out.getvalue().replace(file.name, "-"), err.getvalue().replace(file.name, "-")
