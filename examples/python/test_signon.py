"""A screen in a program's own tests, by pytest."""
from pathlib import Path

import takvorn
from takvorn.pytest_plugin import assert_conforms

HERE = Path(__file__).parents[1]


def test_the_screen_is_what_the_program_reads():
    assert_conforms((HERE / "signon.hex").read_text(), takvorn.Layout.read(HERE / "signon.toml"))


def test_what_the_operator_sends():
    records = (HERE / "signon.hex").read_text()
    *_, entered = takvorn.press(records, "type E4\ntype E2\ntab\ntype E7\nenter\n")
    (answer,) = takvorn.bind(takvorn.Layout.read(HERE / "signon.toml"), entered.sent)
    assert answer.text == {"userid": "US", "password": "X"}
