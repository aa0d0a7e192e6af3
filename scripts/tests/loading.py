"""Loads a script of the repository, whose file has no ending, as a module, and shows a command a terminal."""
import os
import pty
import subprocess
import sys
from importlib.machinery import SourceFileLoader
from importlib.util import module_from_spec, spec_from_loader
from pathlib import Path
from types import ModuleType
from typing import Any

TOP = Path(__file__).resolve().parents[2]


def load(name: str, folder: str = "scripts") -> ModuleType:
    """The script of that name in a folder."""
    loader = SourceFileLoader(name, str(TOP / folder / name))
    spec = spec_from_loader(name, loader)
    assert spec
    sys.modules[name] = module_from_spec(spec)
    loader.exec_module(sys.modules[name])
    return sys.modules[name]


def run_on_terminal(words: list[str | Path], **how: Any) -> tuple[subprocess.CompletedProcess[bytes], str]:
    """Runs a command whose standard error is a terminal, and returns what it writes there too, at most some 4,000
    bytes."""
    terminal, end = pty.openpty()
    ran = subprocess.run(words, stderr=end, **how)
    os.close(end)
    told = b""
    try:
        while part := os.read(terminal, 4096):
            told += part
    except OSError:
        # (so a terminal ends whose other side is closed)
        pass
    os.close(terminal)
    return ran, told.decode()
