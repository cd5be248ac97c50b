"""The tests of tools/, bench/ and .ci/refuse: python3 -B -m unittest discover -t tools -s tools/tests

They need neither the kit nor a program that it builds. What they expect was worked out by hand.
"""
import importlib.machinery
import importlib.util
import pathlib
import sys
from typing import Any

from sochullwa.repository import TOP

sys.path.append(str(TOP / "bench"))


def program(place: str) -> Any:
    """A program of the repository as a module."""
    loader = importlib.machinery.SourceFileLoader(f"program_{pathlib.Path(place).stem}", str(TOP / place))
    spec = importlib.util.spec_from_loader(loader.name, loader)
    assert spec
    module = importlib.util.module_from_spec(spec)
    sys.modules[loader.name] = module
    loader.exec_module(module)
    return module


def put(folder: pathlib.Path, files: dict[str, str]) -> None:
    """Writes files below a folder; those of bin/ can be run."""
    for name, text in files.items():
        path = folder / name
        path.parent.mkdir(parents=True, exist_ok=True)
        path.write_text(text)
        if path.parent.name == "bin":
            path.chmod(0o755)
