"""Many screens at once, as `term3270 suite` checks them."""
import os
from dataclasses import dataclass
from pathlib import Path
from typing import Iterable, Optional, Tuple, Union

from ._commands import Layout, LayoutLike, check
from ._finding import Finding
from ._records import Records
from ._refused import Refused

Named = Tuple[str, LayoutLike, Records]
"""A screen's name, its layout and its records."""

_BESIDE = {".hex": ".toml", ".toml": ".hex"}


@dataclass(frozen=True)
class Case:
    """What is said of a screen: `verdict` is "yes", "no" with its findings, or "refused" with what was refused, as `suite` names them."""

    name: str
    findings: "tuple[Finding, ...]" = ()
    refused: Optional[Refused] = None

    @property
    def verdict(self) -> str:
        return "refused" if self.refused else "no" if self.findings else "yes"


def _paths(folder: "Union[str, Path]") -> "Iterable[str]":
    """The paths of a folder's files, from it on; hidden files and folders are left out, and links to folders aren't followed."""
    for place, folders, files in os.walk(folder):
        folders[:] = [name for name in folders if not name.startswith(".")]
        for name in files:
            if not name.startswith("."):
                yield os.path.relpath(os.path.join(place, name), folder)


def _checked(name: str, layout: LayoutLike, records: Records) -> Case:
    try:
        return Case(name, tuple(check(layout, records)))
    except Refused as refused:
        return Case(name, refused=refused)


def _case_of(folder: str, path: str, paths: "set[str]") -> "Optional[Case]":
    """The case of a file: of records with its layout beside it, or of one of the two without the other."""
    stem, end = os.path.splitext(path)
    if end not in _BESIDE:
        return None
    whole = os.path.join(folder, stem)
    if stem + _BESIDE[end] not in paths:
        return Case(whole + end, refused=Refused(f"no {whole}{_BESIDE[end]} beside it"))
    if end == ".toml":
        return None
    return _checked(whole, Layout.read(whole + ".toml"), Path(whole + ".hex").read_text())


def suite(screens: "Union[str, Path, Iterable[Named]]") -> "list[Case]":
    """Checks screens, each by `check`: those that are named with their layouts and records; or of a folder those for which a NAME.toml lies beside a
    NAME.hex, in it and below it, in rising order of their paths' bytes, named by their paths without `.hex`. A file of the two without the other is
    refused. Maps of a folder are not looked at."""
    if not isinstance(screens, (str, Path)):
        return [_checked(*named) for named in screens]
    folder = str(screens)
    paths = set(_paths(folder))
    cases = (_case_of(folder, path, paths) for path in sorted(paths, key=os.fsencode))
    return [case for case in cases if case]
