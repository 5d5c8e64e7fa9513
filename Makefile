# make run    shows examples/first.hex: by bin/term3270 or, where that isn't built, by a trial of the program without its proofs
# make build  proves the program's crates, side by side, and leaves it at bin/term3270, with a line for each crate
# make test   proves all crates, and then runs the golden cases of the built program and all other tests
# make cases  runs the golden cases, the sessions, the manners and the drafts of the program alone
# make peers  runs other makers' terminals and hosts against the program, those that are installed
# make edits  tries every edit that the prover must refuse, of all crates or, with CRATE=ds_codec, of one
# make bench  times the program beside plain Rust, and calls of the C library beside the program
# make c      builds the C library: out/libtakvorn.a, out/libtakvorn.so and out/takvorn.pc (docs/LIBRARY.md)
# make wheel  builds the Python package with the C library inside: dist/takvorn-VERSION-py3-none-linux_x86_64.whl (docs/LIBRARY.md)
# make page   makes the checker for a browser, dist/takvorn.html, and the module that it stands on (docs/PAGE.md)
# make install PREFIX=/usr/local   puts the program, the C library with its header, the manual page, the completions, the
#             documents and the examples below PREFIX; with DESTDIR=FOLDER below that folder, for a package
# make dist   packs what make install puts: dist/takvorn-VERSION-linux-x86_64.tar.gz and, where dpkg-dev is installed,
#             dist/takvorn_VERSION_amd64.deb
RT := $(shell command -v rt 2>/dev/null)
BUILT := crates/term3270/out/term3270
WIRE := crates/parts_tests/out/parts_tests
SOURCES := $(shell find crates -path '*/out' -prune -o -name '*.rt' -print -o -name '*.antt' -print)
PREFIX ?= /usr/local
LIBRARY := out/libtakvorn.so.1
need_toolchain = $(if $(RT),,$(error missing: the Rattle toolchain's command 'rt' on the PATH))

.PHONY: run build test cases peers edits bench c wheel page install dist clean

run:
	$(if $(wildcard bin/term3270),,$(need_toolchain))
	@sh scripts/run

build: bin/term3270

bin/term3270: $(BUILT)
	@mkdir -p bin && cp $(BUILT) $@

$(BUILT): $(SOURCES)
	$(need_toolchain)
	@sh scripts/build

test:
	$(need_toolchain)
	@sh tests/run

cases: bin/term3270
	@sh tests/cases.sh bin/term3270 && sh tests/sessions.sh bin/term3270 && sh tests/manners.sh bin/term3270 && sh tests/drafts.sh bin/term3270

peers: bin/term3270
	@bash tests/peers bin/term3270

edits:
	$(need_toolchain)
	@python3 tests/edits $(CRATE)

bench: bin/term3270 $(WIRE) $(LIBRARY)
	@sh bench/keep

c: $(LIBRARY)

$(LIBRARY): $(SOURCES) scripts/library include/takvorn.h include/takvorn.map include/takvorn.pc
	$(need_toolchain)
	@PREFIX=$(PREFIX) sh scripts/library

wheel: $(LIBRARY)
	@sh scripts/wheel

page: $(LIBRARY)
	@sh scripts/page

install: bin/term3270 $(LIBRARY)
	@PREFIX=$(PREFIX) DESTDIR=$(DESTDIR) sh scripts/install bin/term3270

dist: bin/term3270 $(LIBRARY)
	@sh scripts/dist bin/term3270

$(WIRE):
	$(need_toolchain)
	@echo "building the wire's benchmark: its proofs take some minutes" >&2
	@cd crates/parts_tests && rt run > /dev/null 2>&1

clean:
	rm -rf bin out dist crates/*/out
