"""Loads a module of another folder of checks/ by its path, since some folders have modules of one name."""

import importlib.util
import pathlib

CHECKS = pathlib.Path(__file__).resolve().parents[1]


def module(path):
    """The module in the file checks/PATH."""
    name = path.removesuffix(".py").replace("/", "_")
    spec = importlib.util.spec_from_file_location(name, CHECKS / path)
    made = importlib.util.module_from_spec(spec)
    spec.loader.exec_module(made)
    return made
