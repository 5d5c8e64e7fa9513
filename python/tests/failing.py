"""A test that fails, whose report is compared: a user id without an end, and a title that comes modified."""
import pathlib

import takvorn
from takvorn.pytest_plugin import assert_conforms

EXAMPLES = pathlib.Path(__file__).parents[2] / "examples"


def test_sign_on():
    records = (EXAMPLES / "signon.hex").read_text().replace("11C44B1DF0", "").replace("1DF0E2C9", "1DF1E2C9")
    assert_conforms(records, takvorn.Layout.read(EXAMPLES / "signon.toml"))
