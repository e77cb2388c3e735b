# What is done with Timeweave. It needs the command `rt` of the Rattle kit, Python 3 and make.

# The copies of the built programs, which the gate doesn't touch.
PROGRAM = bin/timeweave
TREES = bin/tree_pages

# Names of crates, for `make wrong-bodies`.
NAMES ?=

.PHONY: look help clean kit build demo test check crash crash-recording fuzz fuzz-pairs search-weft search-planted wrong-bodies wrong-bodies-kept bench

# Shows the README's examples in some seconds, with Python alone: by the second implementation, which isn't proved. Nothing is built.
look:
	@python3 tools/look.py

# Tells what else can be made, each in its first sentence.
help:
	@awk '/^# /{ if (!goes_on) words = ""; words = words " " substr($$0, 3); goes_on = 1; next } { goes_on = 0 } \
	/^[a-z][a-z-]*:/ && words != "" { name = $$1; sub(/:.*/, "", name); if (match(words, /\. /)) words = substr(words, 1, RSTART); printf "make %-18s%s\n", name, words; words = "" }' Makefile

# Takes away what was built and what it said; what was proved stays, and a release in dist/.
clean:
	rm -rf bin lib log tables web/timeweave.html web/timeweave.wasm web/.timeweave.wasm.sum

kit:
	@command -v rt > /dev/null || { echo "the kit $$(sed -n 's/^kit //p' KIT), the command rt, isn't on the path: without it nothing is proved or built, but \`make look\` shows what Timeweave does, and \`python3 tests/acceptance/run.py --texts\` checks documents and sources" >&2; exit 1; }

build test lib page wrong-bodies wrong-bodies-kept $(PROGRAM) $(TREES): | kit

# Builds the program. Only a proved program is built: a build proves every crate below it first, which takes long. Where nothing
# has changed since the last one, nothing is done. How far it is is shown; what the prover says stands in log/build.log.
build:
	@echo "building: only a proved program is built; where its sources changed, all below it is proved first, which takes long"
	python3 tools/build.py timeweave

# Shows the README's examples by the second implementation at once; then proves and builds the program, and shows them by it, that both say the same, two services
# that keep their histories on disk, proofs of a service that received another one's step, one that an event precedes another, over two services and over three,
# and an audit of such a one.
demo:
	@python3 tools/demo.py

# The gate: every proof, test and program, 78 chosen wrong bodies, and then the acceptance run. How far it is is shown, and what it says stands in log/test.log;
# `.ci/run` by itself says it on the screen.
test:
	python3 tools/progress.py test .ci/run

# The acceptance run over the built program and the one of trees in pages, which are built where they aren't there; after an edit,
# `make build` first.
check: | $(PROGRAM) $(TREES)
	python3 tests/acceptance/run.py $(PROGRAM)

$(PROGRAM):
	$(MAKE) build

$(TREES):
	python3 tools/build.py tree_pages

# Tries all that a loss of power may leave of a store on the built program, of which `make check` tries some.
crash: | $(PROGRAM)
	python3 tests/acceptance/crash.py $(PROGRAM)

# Kills what records at 500 drawn moments, under four writers, and records on a full device; an auditor of its own holds all that was acknowledged against the store.
# `make check` does a few of these kills.
KILLS ?= 500

crash-recording: | $(PROGRAM)
	python3 tests/acceptance/kill_recording.py $(PROGRAM) $(KILLS) $(SEED)

# Runs the built program beside the reference on inputs drawn by chance, for so many seconds. The first trial that differs is shrunk and written into
# tests/acceptance/cases/found; `make check` does 2,000 such trials. The same seed gives the same trials: `make fuzz SECONDS=600 SEED=another`.
SECONDS ?= 60
SEED ?= 1

fuzz: | $(PROGRAM)
	python3 tests/acceptance/fuzz.py $(PROGRAM) $(SECONDS) $(SEED)

# Asks the built library and the reference which rules so many pairs of files show broken, of keepers who break one or none. The first pair that differs is shrunk and
# written into tests/acceptance/cases/found_pairs; `make check` asks for 4,000.
PAIRS ?= 100000

fuzz-pairs:
	python3 tests/acceptance/fuzz_pairs.py $(PAIRS) $(SEED)

# Searches for what weft does wrong, over so many turns of a state machine: services, their carrier, a liar, a thief, backups and killed runs, held against what is
# true. The first script that breaks a rule is shrunk and written into tests/acceptance/cases/found_search; `make check` plays some scripts.
TURNS ?= 20000

search-weft:
	python3 tests/acceptance/search_weft.py $(TURNS) $(SEED)

# Plants faults in weft, each in a process of its own, and tells at which turn that search finds each.
search-planted:
	python3 tests/acceptance/search_weft.py --planted $(SEED)

# The wrong bodies, of which the gate tries those that tell most, of each crate that isn't as it was when its own were tried, over a copy of this tree. A
# crate's line of docs/wrong-bodies-tried.txt, by which `make package` goes, is written as soon as all of its own are refused. ANEW=1 tries those of all
# crates, and `make wrong-bodies NAMES="tw_base tw_disk"` those of these.
ANEW ?=

wrong-bodies:
	python3 tools/wrong_bodies.py $(if $(ANEW),--anew) $(NAMES)

# Proves each crate with what its wrong body of the gate leaves out and no wrong body: so it is the wrong body for which the gate refuses it.
wrong-bodies-kept:
	python3 tools/wrong_bodies.py --kept $(NAMES)

# Measures the built program beside other programs, writes bench/results.json, and makes bench/RESULTS.md and its pictures of that. PARTS="commands receiving"
# measures these alone; `python3 bench/measure.py --parts` tells them all, and how long each takes.
PARTS ?=

bench: | $(PROGRAM) $(TREES)
	python3 bench/measure.py $(PROGRAM) $(PARTS)

# ---- the library for C and Python

LIBRARY = lib/libtimeweave.a
HAS_C := $(shell command -v cc)

.PHONY: lib

# Builds the library, proved as `build` proves the program: lib/libtimeweave.a and lib/libtimeweave.so.
lib:
	python3 tools/build_library.py

$(LIBRARY):
	$(MAKE) lib

# Where there is a C compiler, the acceptance run tries the library too, it is measured, and it is installed.
check bench: | $(if $(HAS_C),$(LIBRARY))

# ---- the page that checks proofs, and the module for JavaScript

PAGE = web/timeweave.html
HAS_PAGE := $(shell command -v node)

.PHONY: page

# Builds web/timeweave.html, one file, and web/timeweave.wasm, of the library, which is proved as `lib` proves it.
page:
	python3 tools/build_page.py

# (Status 4: a tool isn't the one that the page was tested with, and so the page is left out.)
$(PAGE):
	python3 tools/build_page.py || test $$? -eq 4

# Where it can be built and tried, the acceptance run tries it, and it is measured.
check bench: | $(if $(HAS_PAGE),$(PAGE))

# ---- to have it elsewhere

# Where `make install` puts what it copies: libraries to LIBDIR, modules for Python to PYTHONDIR, beside weft, which finds them there; all below DESTDIR, as packagers have it.
PREFIX ?= /usr/local
LIBDIR ?= $(PREFIX)/lib
PYTHONDIR ?= $(PREFIX)/share/timeweave
VERSION := $(shell cat VERSION)
MAJOR := $(firstword $(subst ., ,$(VERSION)))
BIN = $(DESTDIR)$(PREFIX)/bin
LIB = $(DESTDIR)$(LIBDIR)
PYTHON = $(DESTDIR)$(PYTHONDIR)
SHARE = $(DESTDIR)$(PREFIX)/share
OWN = $(SHARE)/timeweave
DOC = $(SHARE)/doc/timeweave

# Which modes files get, whatever the umask. tools/judge_release.py reads where a release's files belong out of the lines that begin with these.
PUT = umask 022; install -D -m 644
PUT_PROGRAM = umask 022; install -D -m 755

# Copies a part where it is built; else the command that builds it is told.
if_built = @if test -e $(1); then $(MAKE) --no-print-directory $(3); else echo "install: $(1) isn't there, and so is left out; \`$(2)\` builds it" >&2; fi

.PHONY: tables install install-program install-weft install-python install-lib install-page install-documents install-tables install-service package release twice

# Writes tables/, of the sources' comments: what each public clause says, and what each definition means. Packages have both.
tables:
	python3 tools/claims.py --to tables/claims.md
	python3 tools/definitions.py --to tables/definitions.md

# Copies what is built, and builds nothing: the program, weft, the library, the page, the documents. What isn't built is told; without the program
# nothing is copied.
install:
	$(call if_built,$(PROGRAM),make build,install-program)
	@test -e $(PROGRAM)
	@$(MAKE) --no-print-directory install-weft install-python install-documents
	$(call if_built,lib/libtimeweave.so,make lib,install-lib)
	$(call if_built,web/timeweave.wasm,make page,install-page)
	$(call if_built,tables/claims.md,make tables,install-tables)

install-program:
	$(PUT_PROGRAM) $(PROGRAM) $(BIN)/timeweave
	$(PUT) -t $(SHARE)/man/man1 docs/timeweave.1
	$(PUT) tools/completion.bash $(SHARE)/bash-completion/completions/timeweave

# Copies weft, its manual page, and the reference by which it reads files.
install-weft:
	$(PUT_PROGRAM) -t $(OWN)/weft/bin weft/bin/weft
	$(PUT) -t $(OWN)/weft weft/*.py weft/py.typed
	$(PUT) -t $(OWN)/weft/deciding weft/deciding/*.py
	$(PUT) -t $(OWN)/weft/words weft/words/*.py
	$(PUT) -t $(SHARE)/man/man1 weft/weft.1
	$(PUT) weft/completion.bash $(SHARE)/bash-completion/completions/weft
	$(PUT) -t $(PYTHON)/timeweave_reference reference/timeweave_reference/*.py reference/timeweave_reference/py.typed
	$(PUT_PROGRAM) -t $(BIN) reference/bin/timeweave-unproved
	ln -sf ../share/timeweave/weft/bin/weft $(BIN)/weft

install-python:
	$(PUT) -t $(PYTHON) bindings/python/timeweave.py bindings/python/timeweave_recording.py

# Copies the library, its headers, what pkg-config reads, and the module for Python.
install-lib: install-python
	$(PUT) lib/libtimeweave.so $(LIB)/libtimeweave.so.$(VERSION)
	$(PUT) -t $(LIB) lib/libtimeweave.a
	$(PUT) -t $(DESTDIR)$(PREFIX)/include include/timeweave.h include/timeweave_collect.h
	$(PUT) include/timeweave.pc.in $(LIB)/pkgconfig/timeweave.pc
	sed -i 's,@PREFIX@,$(PREFIX),; s,@LIBDIR@,$(LIBDIR),; s,@VERSION@,$(VERSION),' $(LIB)/pkgconfig/timeweave.pc
	ln -sf libtimeweave.so.$(VERSION) $(LIB)/libtimeweave.so.$(MAJOR)
	ln -sf libtimeweave.so.$(VERSION) $(LIB)/libtimeweave.so

install-page:
	$(PUT) -t $(OWN)/web web/timeweave.html web/timeweave.wasm web/timeweave.mjs web/timeweave.d.mts

install-documents:
	$(PUT) -t $(DOC) README.md LICENSE NOTICE crates.txt
	$(PUT) -t $(DOC)/docs docs/*.md docs/*.png docs/*.svg docs/timeweave.1
	$(PUT) -t $(DOC)/weft weft/weft.1
	$(PUT) -t $(DOC)/include include/timeweave.h
	$(PUT) -t $(DOC)/bindings/python bindings/python/*.py
	$(PUT) -t $(DOC)/examples examples/*.sh examples/*.py examples/*.c
	$(PUT) -t $(DOC)/examples/bindings examples/bindings/*
	$(PUT) -t $(DOC)/examples/verifier_in_perl examples/verifier_in_perl/*
	$(PUT) -t $(DOC)/vectors vectors/*
	$(PUT) -t $(DOC)/reference reference/README.md
	$(PUT) -t $(DOC)/web web/README.md
	$(PUT) -t $(DOC)/bench bench/RESULTS.md bench/*.svg
	$(PUT) -t $(DOC)/tests/packages tests/packages/*.md

install-tables:
	$(PUT) -t $(DOC)/tables tables/claims.md tables/definitions.md

# Copies what a package alone has, since its paths are those of a package and its settings a person's own: the units of each night.
install-service:
	$(PUT_PROGRAM) -t $(OWN) weft/service/night
	$(PUT) -t $(DESTDIR)$(PREFIX)/lib/systemd/system weft/service/timeweave.service weft/service/timeweave.timer
	$(PUT) weft/service/sysusers.conf $(DESTDIR)$(PREFIX)/lib/sysusers.d/timeweave.conf
	$(PUT) -t $(DESTDIR)/etc weft/service/timeweave.conf

# Writes dist/: packages for Debian, a tar file with the same, the page, and the digests of all; signed where KEY names a key of ssh. What they are made of has
# to be built of these sources, these to be committed, and all wrong bodies of their crates to be tried: what is missing is told. docs/releases.md tells what is in them.
KEY ?=

package:
	python3 tools/release.py --packages $(if $(KEY),--key $(KEY))

# Writes dist/ as a release that can be judged by its files alone: what `package` writes, the sources, the vectors, licences, a list of parts, and what the gate said.
# GATE names the log of a gate that passed on these sources, log/test.log where it isn't said; with RECORD=DIR the release is recorded in a log of Timeweave in DIR.
# With TRIAL=1 it takes a log and wrong bodies that lack something, and makes a trial, which says in each place that it is none.
GATE ?=
RECORD ?=
TRIAL ?=

release:
	python3 tools/release.py $(if $(KEY),--key $(KEY)) $(if $(GATE),--gate $(GATE)) $(if $(RECORD),--record $(RECORD)) $(if $(TRIAL),--trial)

# Builds program, library, page and packages twice, in two folders, under two users, with nothing that an earlier build left, and compares: hours. With BESIDE=1
# it builds once, and compares with dist/, where a release may lie that somebody else made.
BESIDE ?=

twice:
	python3 tools/twice.py $(if $(BESIDE),--beside)
