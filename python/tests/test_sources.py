"""The front's own sources: types, length and documentation; and the shell scripts of the repository."""
from __future__ import annotations

import ast
import glob
import os
import shutil
import subprocess
import sys
from typing import Iterator

import pytest
from conftest import ROOT

MODULES = sorted(glob.glob(f"{ROOT}/python/src/timeline/*.py"))
MOST = 40       # lines of a function
Function = (ast.FunctionDef, ast.AsyncFunctionDef)


def shell_scripts() -> list[str]:
    """The files of the repository that begin as shell scripts do, or end as they are named."""
    files = subprocess.run(["git", "ls-files", "-z"], cwd=ROOT, capture_output=True, check=True).stdout.decode().split("\0")
    found = []
    for path in (it for it in files if it and not it.startswith("crates/") and os.path.isfile(f"{ROOT}/{it}")):
        with open(f"{ROOT}/{path}", "rb") as file:
            first = file.readline(60)
        if first.startswith(b"#!") and b"sh" in first.split(b"/")[-1] or path.endswith(".sh"):
            found.append(path)
    return found


def test_shellcheck_is_quiet_without_switches() -> None:
    if shutil.which("shellcheck") is None:
        pytest.skip("shellcheck is not here")
    scripts = shell_scripts()
    assert "timeline" in scripts and ".ci/run" in scripts
    done = subprocess.run(["shellcheck", *scripts], cwd=ROOT, capture_output=True, text=True, check=False)
    assert done.returncode == 0, done.stdout


def test_types() -> None:
    pytest.importorskip("mypy")
    words = [sys.executable, "-m", "mypy", "--no-incremental", "--cache-dir", os.devnull, "--config-file", "python/pyproject.toml", "python/src/timeline"]
    done = subprocess.run(words, cwd=ROOT, capture_output=True, text=True, check=False)
    assert done.returncode == 0, done.stdout + done.stderr


def definitions(tree: ast.AST) -> Iterator[ast.FunctionDef | ast.AsyncFunctionDef | ast.ClassDef]:
    for node in ast.walk(tree):
        if isinstance(node, (*Function, ast.ClassDef)):
            yield node


@pytest.mark.parametrize("path", MODULES, ids=os.path.basename)
def test_functions_are_short_and_what_is_public_is_documented(path: str) -> None:
    with open(path, encoding="utf-8") as file:
        tree = ast.parse(file.read())
    assert ast.get_docstring(tree), "the module says not what it is for"
    long = [it.name for it in definitions(tree) if isinstance(it, Function) and (it.end_lineno or 0) - it.lineno + 1 > MOST]
    assert not long
    public = [it for it in tree.body if isinstance(it, (*Function, ast.ClassDef)) and not it.name.startswith("_")]
    members = [it for one in public if isinstance(one, ast.ClassDef) for it in one.body if isinstance(it, Function) and not it.name.startswith("_")]
    bare = [it.name for it in [*public, *members] if not ast.get_docstring(it) and not isinstance(it.body[-1].value if isinstance(it.body[-1], ast.Expr) else None, ast.Constant)]
    assert not bare


@pytest.mark.parametrize("path", MODULES, ids=os.path.basename)
def test_no_handler_takes_every_exception(path: str) -> None:
    with open(path, encoding="utf-8") as file:
        handlers = [it for it in ast.walk(ast.parse(file.read())) if isinstance(it, ast.ExceptHandler)]
    names = {"Exception"}
    assert not [it.lineno for it in handlers if it.type is None or isinstance(it.type, ast.Name) and it.type.id in names]
