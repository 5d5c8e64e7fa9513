"""For tests of screens by pytest: a fixture `screen`, and `assert_conforms`, whose failure shows the screen with what is found."""
from typing import Callable, List

import pytest

from ._commands import LayoutLike, check
from ._finding import Finding
from ._records import Records
from ._screen import Screen, show

MARKS = "123456789abcdefghijklmnopqrstuvwxyz"


def _report(findings: List[Finding], records: Records) -> str:
    """The screen, with a mark below the place of each finding, and the findings; those past the marks have a plus sign."""
    marks = MARKS + "+" * len(findings)
    places = {it.place: mark for mark, it in zip(marks, findings) if it.place is not None}
    lines = [f"{len(findings)} finding{'s' * (len(findings) != 1)}", show(records).marked(places)]
    lines += [f"{mark} {it}" for mark, it in zip(marks, findings)]
    return "\n".join(lines)


def assert_conforms(records: Records, layout: LayoutLike) -> None:
    """Fails where something stands against the screen of these records and the layout. Refused where an input is refused."""
    __tracebackhide__ = True
    findings = check(layout, records)
    if findings:
        pytest.fail(_report(findings, records), pytrace=False)


@pytest.fixture
def screen() -> Callable[[Records], Screen]:
    """The screen that records leave."""
    return show
