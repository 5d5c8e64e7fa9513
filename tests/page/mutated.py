#!/usr/bin/env python3
"""Inputs drawn at random from the golden cases and changed, with what the shared library answers, a line of JSON each:
mutated.py LIBRARY CASES SEED COUNT. `same.mjs` asks the page's module for the same."""
import base64
import ctypes
import glob
import json
import random
import sys

ROOM = 8_000_000
ONE = ["show", "show_svg", "show_html", "show_json", "show_colored", "convert", "convert_back", "draft"]


class Text(ctypes.Structure):
    _fields_ = [("bytes", ctypes.c_char_p), ("length", ctypes.c_size_t)]


class Library:
    """The shared library, called as the page's module is."""

    def __init__(self, path):
        self.library = ctypes.CDLL(path)
        self.out = ctypes.create_string_buffer(ROOM)

    def call(self, name, inputs):
        words = [word for it in inputs for word in self.words_of(it)]
        needed = ctypes.c_size_t()
        status = getattr(self.library, f"takvorn_{name}")(*words, self.out, ctypes.c_size_t(ROOM), ctypes.byref(needed))
        assert needed.value <= ROOM, f"{name}: {needed.value} bytes"
        return status, self.out.raw[: needed.value]

    @staticmethod
    def words_of(it):
        if isinstance(it, bool):
            return [ctypes.c_bool(it)]
        if isinstance(it, list):
            return [(Text * len(it))(*[Text(text, len(text)) for text in it]), ctypes.c_size_t(len(it))]
        return [ctypes.c_char_p(it), ctypes.c_size_t(len(it))]


class Drawn:
    """Inputs of the golden cases, changed at some places."""

    def __init__(self, cases, seed):
        self.random = random.Random(seed)
        self.records = self.read(f"{cases}/*/*/stdin")
        self.layouts = self.read(f"{cases}/*/*/*.toml")
        self.keys = self.read(f"{cases}/*/*/keys")
        self.traces = self.read(f"{cases}/records/*/stdin")
        self.sources = self.read(f"{cases}/map/*/*.bms")

    @staticmethod
    def read(pattern):
        texts = [open(path, "rb").read() for path in sorted(glob.glob(pattern))]
        return [text for text in texts if len(text) < 20_000]

    def changed(self, texts):
        text = bytearray(self.random.choice(texts))
        for _ in range(self.random.choice([0, 0, 1, 1, 2, 3, 8])):
            if not text:
                break
            at, how = self.random.randrange(len(text)), self.random.randrange(5)
            end = min(len(text), at + self.random.randrange(1, 20))
            if how < 3:
                text[at] = self.random.choice(b"0123456789ABCDEF")
            elif how == 3:
                text[at] = self.random.randrange(256)
            elif self.random.random() < 0.5:
                del text[at:end]
            else:
                text[at:at] = text[at:end]
        return bytes(text)

    def call(self):
        flag = lambda: self.random.random() < 0.5
        name = self.random.choice([*ONE, "check", "check_json", "talk", "press", "bind", "show_pressed", "origins", "records", "map", "check_map"])
        records, layout = self.changed(self.records), self.changed(self.layouts)
        some = [self.changed(self.layouts) for _ in range(self.random.randrange(1, 4))]
        inputs = {
            "check": [layout, records, flag()], "check_json": [layout, records], "talk": [some, records], "bind": [layout, records, flag()],
            "press": [records, self.changed(self.keys)], "show_pressed": [records, self.changed(self.keys), flag()],
            "origins": [layout, records], "records": [self.changed(self.traces), flag(), flag()],
            "map": [self.changed(self.sources), b"", flag(), flag(), flag()], "check_map": [self.changed(self.sources), b"", flag(), flag()],
        }
        return name, inputs.get(name, [records])


def told(it):
    if isinstance(it, bool):
        return it
    return [told(one) for one in it] if isinstance(it, list) else base64.b64encode(it).decode()


def main():
    path, cases, seed, count = sys.argv[1:]
    library, drawn = Library(path), Drawn(cases, int(seed))
    for _ in range(int(count)):
        name, inputs = drawn.call()
        status, text = library.call(name, inputs)
        print(json.dumps([name, told(inputs), status, told(text)]))


main()
