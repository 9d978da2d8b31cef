"""Loads a tool, whose file has no ending, as a module; and makes folders of files for it to look at."""
from __future__ import annotations

import sys
from importlib.machinery import SourceFileLoader
from importlib.util import module_from_spec, spec_from_loader
from pathlib import Path
from types import ModuleType
from typing import Dict

TOOLS = Path(__file__).resolve().parent.parent
sys.path.insert(0, str(TOOLS))


def load(name: str) -> ModuleType:
    """The tool with this name; of a folder of tools `air/on_air`, which finds what stands beside it."""
    folder = str((TOOLS / name).parent)
    if folder not in sys.path:
        sys.path.insert(0, folder)
    loader = SourceFileLoader(name.replace("-", "_"), str(TOOLS / name))
    spec = spec_from_loader(loader.name, loader)
    assert spec is not None
    module = module_from_spec(spec)
    sys.modules[loader.name] = module
    loader.exec_module(module)
    return module


def write_files(top: Path, files: Dict[str, str]) -> None:
    """Writes these files, with the folders that they need."""
    for name, text in files.items():
        path = top / name
        path.parent.mkdir(parents=True, exist_ok=True)
        path.write_text(text, encoding="utf-8")
