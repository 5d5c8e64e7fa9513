#!/usr/bin/env python3
"""Uses the page as a person does, in Chromium and in Firefox: browser.py PAGE [PICTURES]. It opens from its file, files are
dropped, keys typed, findings clicked, at several widths; pictures are left in the folder PICTURES. A browser that isn't installed
is said. The last line is 'N passed, M failed, K skipped'."""
import os
import pathlib
import shutil
import sys
import tempfile

import driver

ROOT = pathlib.Path(__file__).resolve().parents[2]
SIGNON = [str(ROOT / "examples/signon.hex"), str(ROOT / "examples/signon.toml")]
TAB, ENTER, BACKSPACE = "\ue004", "\ue007", "\ue003"
READY = "return document.documentElement.dataset.ready !== undefined"
TEXT = "return document.querySelector(arguments[0]).textContent"


class Trial:
    def __init__(self, browser, page, pictures):
        self.browser, self.page, self.pictures = browser, page, pictures
        self.passed = self.failed = 0

    def compare(self, what, wanted, found):
        if wanted == found:
            self.passed += 1
        else:
            self.failed += 1
            print(f"{self.browser.name}: {what}: wanted {wanted!r}, found {found!r}")

    def text(self, selector):
        return self.browser.run(TEXT, selector)

    def holds(self, what, script, *words, seconds=30):
        self.compare(what, True, bool(self.browser.until(script, *words, seconds=seconds)))

    def open(self, fragment=""):
        self.browser.go("about:blank")
        self.browser.go(pathlib.Path(self.page).as_uri() + fragment)
        self.holds("the page is ready", READY)

    def give(self, paths):
        """Files as if they were dropped: their names and bytes come from the disk, through the page's own reader."""
        self.browser.give_files("#files", paths)

    def drop(self, name, text):
        """A file of this name and text, dropped on the page."""
        self.browser.run(
            "const data = new DataTransfer(); data.items.add(new File([arguments[1]], arguments[0]));"
            "document.body.dispatchEvent(new DragEvent('drop', { dataTransfer: data, bubbles: true, cancelable: true }))", name, text)

    def picture(self, name):
        if self.pictures:
            self.browser.picture(f"{self.pictures}/{self.browser.name.lower()}-{name}.png")


def both(path):
    return pathlib.Path(path).read_text(encoding="utf-8")


def try_sign_on(trial):
    """Drop the screen and its layout, see the title, type, press Enter, read the answer."""
    trial.open()
    for path in SIGNON:
        trial.drop(os.path.basename(path), both(path))
    trial.holds("the verdict of the sign-on is yes", "return document.querySelector('#verdict').className === 'yes'")
    trial.holds("the title is on the screen", "return document.querySelector('#shown').textContent.includes('SIGN ON')")
    trial.browser.run("document.querySelector('#screen').focus()")
    type_on_screen(trial, ["A", "N", "X", "Backspace", "N", "A", "Tab", "Backspace"])
    trial.compare("a backspace before a field moves alone", True, "keyboard free" in trial.text("#facts"))
    type_on_screen(trial, ["Tab", "S", "E", "C", "R", "E", "T", "Enter"])
    trial.holds("what was sent is told", "return document.querySelector('#sent').textContent.includes('userid ANNA')")
    sent = trial.browser.run("return document.querySelector('#sent').textContent")
    for part in ["7DC5D911C4C3C1D5D5C111C5D3E2C5C3D9C5E3", "userid ANNA", "password SECRET"]:
        trial.compare(f"{part} was sent", True, part in sent)
    trial.compare("the keyboard waits", True, "keyboard waiting" in trial.text("#facts"))
    trial.picture("sent")


def type_on_screen(trial, keys):
    """Real keys where the protocol has them, else the events of a page."""
    if hasattr(trial.browser, "type"):
        return trial.browser.type([{"Tab": TAB, "Enter": ENTER, "Backspace": BACKSPACE}.get(key, key) for key in keys])
    for key in keys:
        trial.browser.run("document.activeElement.dispatchEvent(new KeyboardEvent('keydown', { key: arguments[0], bubbles: true, cancelable: true }))", key)
    return None


def try_flaw(trial):
    """Drop a screen with a flaw, click the finding, see the frame and the keys that show it."""
    flawed = both(SIGNON[0]).replace(" 11C44B1DF0", "", 1)
    trial.open()
    trial.drop("signon.toml", both(SIGNON[1]))
    trial.drop("signon.hex", flawed)
    trial.holds("the verdict is no", "return document.querySelector('#verdict').className === 'no'")
    trial.browser.run("document.querySelector('#findings button.words').click()")
    trial.holds("the frame of the finding is picked",
                "return document.querySelector('#screen').shadowRoot.querySelectorAll('rect.finding.picked').length > 0")
    trial.compare("the finding is F11", True, trial.text("#findings").startswith("F11 userid"))
    trial.compare("it has its meaning and its mend", True, "It means: " in trial.text("#findings") and "Mend: " in trial.text("#findings"))
    trial.picture("finding")
    trial.browser.run("[...document.querySelectorAll('#findings button')].find((it) => it.textContent === 'Show me').click()")
    trial.holds("the keys of the finding are pressed", "return document.querySelector('#sent li') !== null")
    told = trial.browser.run("return [document.querySelector('#sent code').textContent, takvornPage.findings[0].sends]")
    trial.compare("they send what the finding says", told[1], told[0])
    look = "[...document.querySelectorAll('#findings button')].find((it) => it.textContent === arguments[0]).click(); const it = document.activeElement; return [it.id, it.value.slice(it.selectionStart, it.selectionEnd)]"
    trial.compare("the layout's entry is looked at", ["layout", "[[field]]"], trial.browser.run(look, "The layout's entry"))


def try_orders(trial):
    """Order lines and hexadecimal follow each other; a draft becomes the layout."""
    trial.open()
    trial.drop("signon.hex", both(SIGNON[0]))
    trial.browser.run("takvornPage.openTab('tab-records')")
    orders = trial.browser.run("return document.querySelector('#orders').value")
    trial.compare("the orders begin with Erase/Write", "EW", orders[:2])
    change = "const it = document.querySelector(arguments[0]); it.focus(); it.value = it.value.replace(arguments[1], arguments[2]); it.dispatchEvent(new Event('input'))"
    trial.browser.run(change, "#orders", "D6D5", "D6C6")
    trial.holds("the hexadecimal follows", "return document.querySelector('#records').value.includes('D6C6')")
    trial.holds("so does the screen", "return document.querySelector('#shown').textContent.includes('SIGN OF')")
    trial.browser.run(change, "#records", "D6C6", "D6D5")
    trial.holds("the orders follow", "return document.querySelector('#orders').value.includes('D6D5')")
    trial.browser.run("document.querySelector('#draft').click()")
    trial.holds("the draft is the layout", "return takvornPage.state.layouts[0].includes('name = \"userid\"')")
    trial.holds("with which the verdict is yes", "return document.querySelector('#verdict').className === 'yes'")


def try_dialogue(trial):
    """The steps of a dialogue, and hovering."""
    trial.open()
    trial.browser.run("const it = document.querySelector('#examples'); it.value = '3'; it.dispatchEvent(new Event('change'))")
    trial.holds("a dialogue of two turns is yes", "return document.querySelector('#verdict').className === 'yes'")
    trial.browser.run("const it = document.querySelector('#step'); it.value = '1'; it.dispatchEvent(new Event('input'))")
    trial.compare("the first turn is told", True, "turn 1 of 2" in trial.text("#step-label"))
    trial.browser.run("takvornPage.place(30)")
    trial.compare("a place tells its order", True, "written by record 0, byte" in trial.text("#place"))
    trial.compare("a place tells its code", True, " · code E2 · " in trial.text("#place"))
    trial.picture("dialogue")


def try_map(trial):
    """BMS source: its record, its layout and the verdict."""
    trial.open()
    trial.drop("signon.bms", both(ROOT / "examples/signon.bms"))
    trial.holds("the verdict of the map is yes", "return document.querySelector('#verdict').className === 'yes'")
    trial.compare("it was taken for BMS source", True, "BMS source" in trial.text("#note"))
    trial.compare("the layout is the map's", True, trial.browser.run("return takvornPage.state.layouts[0].includes('[[field]]')"))


def try_inputs(trial):
    """A trace, a captured stream, order lines and keys are known for what they are, and their records or keys taken."""
    trial.open()
    for name, path, words, count in [
        ("session.trc", "examples/session.trc", "a trace", None),
        ("host.hex", "tests/cases/records/stream/stdin", "a captured stream", 1),
        ("screen.lines", None, "order lines", 1),
    ]:
        trial.drop(name, "EW C2\nSBA 0\nSF 20\nTEXT C8C9\n" if path is None else both(ROOT / path))
        trial.holds(f"{name} was taken for {words}", "return document.querySelector('#note').textContent.includes(arguments[0])", f"{name} was taken for {words}")
        found = trial.browser.run("return takvornPage.parsed.records.length")
        trial.compare(f"{name} has records", True, found > 0 if count is None else found == count)
    trial.drop("typed.keys", "tab\nenter\n")
    trial.holds("keys were pressed", "return takvornPage.state.keys.join() === 'tab,enter'")


def try_sizes(trial):
    """The largest model of 3270 terminals, and a screen of 16-bit addresses with a field at its end."""
    for sizes, record, facts, place in [
        ("24x80 62x160", "7EC2 1140C2 1D60 C1", "62x160", 9919),
        ("64x255 64x255 16", "F5C2 110010 1D60 C1 113FBE 1D40 13", "64x255", 16319),
    ]:
        trial.open()
        trial.drop("large.hex", f"size {sizes}\n{record}\n")
        trial.holds(f"{facts} is shown", "return document.querySelector('#facts').textContent.startsWith(arguments[0])", facts)
        trial.browser.run("takvornPage.place(arguments[0])", place)
        trial.compare(f"the last place of {facts}", True, trial.text("#place").startswith(f"place {place}, row {facts.split('x')[0]}, column {facts.split('x')[1]}"))
        wide = trial.browser.run("return document.documentElement.scrollWidth - innerWidth")
        trial.compare(f"{facts} fits", True, wide <= 0)
        trial.picture(facts)


def try_refusals(trial):
    """A garbage file, a file of 16 MB, a module that stops: each is said, and what was put in is kept."""
    trial.open()
    trial.drop("garbage.bin", "\u0000\ufffd garbage")
    trial.holds("garbage is said", "return document.querySelector('#note').textContent.includes(\"can't be taken\")")
    trial.browser.run(
        "const line = 'F5C2' + '40'.repeat(8000) + '\\n'; const data = new DataTransfer();"
        "data.items.add(new File([line.repeat(Math.floor(16777216 / line.length))], 'large.hex'));"
        "document.body.dispatchEvent(new DragEvent('drop', { dataTransfer: data, bubbles: true, cancelable: true }))")
    trial.holds("a file of 16 MB is answered", "return document.querySelector('#note').textContent.startsWith('large.hex') && takvornPage.parsed.records.length > 900", seconds=90)
    trial.drop("signon.hex", both(SIGNON[0]))
    trial.holds("the sign-on is back", "return document.querySelector('#shown').textContent.includes('SIGN ON')", seconds=90)
    trial.browser.run("const library = takvornPage.work.library; library.exports = { ...library.exports, takvorn_check_json() { throw new WebAssembly.RuntimeError('unreachable') } }; takvornPage.change({})")
    trial.compare("a module that stopped is said", True, "was started anew" in trial.text("#note"))
    trial.compare("what was put in is kept", True, trial.browser.run("return takvornPage.state.records.includes('F5C3')"))
    trial.browser.run("takvornPage.change({})")
    trial.holds("and it answers again", "return document.querySelector('#shown').textContent.includes('SIGN ON')")


def try_link(trial):
    """A state goes into the address, and comes back from it."""
    trial.open()
    trial.drop("signon.toml", both(SIGNON[1]))
    trial.drop("signon.hex", both(SIGNON[0]).replace("E2C9C7D540D6D5", "D3C9D5D2C5C4"))
    # What is dropped last is in the address once its link was asked for.
    trial.holds("it is on the screen", "return document.querySelector('#shown').textContent.includes('LINKED')")
    trial.browser.run("document.querySelector('#link').click()")
    trial.holds("the link is told", "return document.querySelector('#note').textContent.startsWith('The link')")
    fragment = trial.browser.run("return location.hash")
    trial.compare("the address has it", "#1", fragment[:2])
    trial.open(fragment)
    trial.holds("a link brings it back", "return document.querySelector('#shown').textContent.includes('LINKED')")


def try_widths(trial):
    """Nothing goes past the right edge, from a telephone's width to a wall's."""
    for width, height in [(390, 844), (320, 640), (1400, 1000), (4000, 2000)]:
        trial.browser.size(width, height)
        trial.open()
        wide = trial.browser.run("return document.documentElement.scrollWidth - innerWidth")
        trial.compare(f"{width} pixels are enough", True, wide <= 0)
        trial.picture(f"{width}")
    trial.browser.size(1400, 1000)


def try_keyboard(trial):
    """Each control can be reached and has a name; the screen gives the focus back."""
    trial.open()
    nameless = trial.browser.run(
        "return [...document.querySelectorAll('button, select, textarea, input:not([hidden])')].filter((it) =>"
        "!(it.textContent.trim() || it.getAttribute('aria-label') || it.labels?.length)).map((it) => it.id || it.outerHTML)")
    trial.compare("each control has a name", [], nameless)
    trial.browser.run("document.querySelector('#screen').focus();"
                      "document.querySelector('#screen').dispatchEvent(new KeyboardEvent('keydown', { key: 'Escape', bubbles: true }))")
    trial.compare("Escape leaves the screen", "Enter", trial.browser.run("return document.activeElement.textContent"))
    trial.browser.run("document.documentElement.className = 'dark'")
    trial.picture("dark")
    trial.browser.run("document.documentElement.className = 'light'")
    trial.picture("light")


def try_speed(trial):
    """The first screen, from the loading of the page on, and a check of the sign-on; told, and held loosely here."""
    trial.open()
    first = trial.browser.run("return performance.getEntriesByName('first-screen')[0].startTime")
    each = trial.browser.run(
        "const { library } = takvornPage.work, { records, layouts } = takvornPage.state; const check = () => library.call('check', layouts[0], records, true);"
        "for (let i = 0; i < 200; i++) check(); const begun = performance.now(); for (let i = 0; i < 1000; i++) check(); return (performance.now() - begun) / 1000")
    print(f"{trial.browser.name}: the first screen after {first:.0f} ms, a check of the sign-on {each * 1000:.0f} microseconds")
    trial.compare("a check of the sign-on is under 1 ms", True, each < 1)


def try_requests(trial):
    """Nothing is asked for but the page's own file."""
    asked = [address for address in trial.browser.requests() if not address.startswith(("data:", "about:", "blob:"))]
    trial.compare("no request goes out", [], [address for address in asked if not address.startswith("file:")])
    trial.compare("but for the page", True, all(address.split("#")[0] == pathlib.Path(trial.page).as_uri() for address in asked))


TRIALS = [try_speed, try_sign_on, try_flaw, try_orders, try_dialogue, try_map, try_inputs, try_sizes, try_refusals, try_link, try_widths, try_keyboard]


def run(browser, page, pictures):
    trial = Trial(browser, page, pictures)
    try:
        browser.size(1400, 1000)
        if hasattr(browser, "requests"):
            # What the browser asks for as it starts is its own.
            browser.go("about:blank")
            browser.requests()
        for one in TRIALS:
            one(trial)
        if hasattr(browser, "requests"):
            try_requests(trial)
    finally:
        browser.close()
    return trial.passed, trial.failed


def main():
    page, pictures = os.path.abspath(sys.argv[1]), sys.argv[2] if len(sys.argv) > 2 else ""
    passed = failed = skipped = 0
    for made, wanted in [(driver.Chromium, "chromedriver"), (driver.Firefox, "firefox-esr")]:
        if not shutil.which(wanted):
            print(f"missing: {wanted}")
            skipped += 1
            continue
        counts = run(made(), page, pictures)
        passed, failed = passed + counts[0], failed + counts[1]
    print(f"{passed} passed, {failed} failed, {skipped} skipped")
    sys.exit(1 if failed else 0)


if __name__ == "__main__":
    main()
