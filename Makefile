# Streetmap in a few commands. They need the Rattle toolchain's command `rt`, and Python 3.
# `make help` lists the targets: each line below that begins with `## ` is a line of it.
SHELL := /bin/bash
PROGRAM := crates/streetmap/out/streetmap
# A sample town that `make map` fills FILE with: quarter.
TOWN ?=
FILE ?= $(or $(TOWN),town).streetmap
PORT ?= 8080
# In how many processes crates are proved, each of which takes 1 to 4 GB of memory. `make build`
# takes as many as fit if none is named.
LANES ?=
# With OFFLINE=1 no package is installed, and groups of tests that lack one are skipped.
OFFLINE ?=

PREFIX ?= /usr/local
DESTDIR ?=

.DEFAULT_GOAL := help
.PHONY: help try serve map gateway demo build refuse install deb deps test check lint bench toolchain

## help      this list
help:
	@echo "make TARGET [NAME=VALUE ..]; README.md says how long each takes."
	@sed -n 's/^## /  /p' Makefile

## try       serves the sample quarter from memory, with no proof: make try PORT=8080
try: toolchain
	@python3 tools/try_town.py $(PORT)

## build     proves and builds the program; if it was stopped, it goes on: make build LANES=2
build: toolchain
	@python3 tools/build.py $(LANES)
	@echo "The program: $(PROGRAM)"

## demo      builds, and then imports, serves, changes and kills a sample town
demo: build
	@bash examples/demo.sh $(PROGRAM)

## serve     builds, makes FILE if it is missing, and serves it: make serve FILE=town.streetmap
serve: build
	@test -e $(FILE) || $(PROGRAM) create $(FILE)
	$(PROGRAM) serve $(FILE) --port $(PORT)

## map       builds, and serves FILE and a map of it by nginx: make map TOWN=quarter, or FILE=..
map: build
	@python3 deploy/serve_map.py $(PROGRAM) $(FILE) --port $(PORT) $(addprefix --town ,$(TOWN))

## gateway   builds, and serves FILE with the gateway in front: make gateway SETTINGS=my.toml
SETTINGS ?= gateway/gateway.toml
gateway: build
	@bash gateway/run.sh $(PROGRAM) $(FILE) $(SETTINGS)

## refuse    breaks a function, and shows the prover refuse it: make refuse CRATE=.. BODY=..
CRATE ?= streetmap_grid
BODY ?= corner_not_tried
refuse: toolchain
	@python3 tools/refuse.py $(CRATE) $(BODY)

## check     the groups of tests, over the built program: make check CHECK="load file"
CHECK ?=
check:
	python3 tests/run.py $(PROGRAM) $(CHECK)

## lint      black, mypy, shellcheck, ESLint, tsc and the layout of Rattle over the sources
lint:
	@python3 tools/lint.py

## test      the gate (each proof from nothing, each wrong body), and then all groups of tests
test: toolchain
	RT_JOBS=$(or $(LANES),$(shell nproc)) python3 tools/gate.py
	python3 tests/run.py $(PROGRAM) $(CHECK)

## bench     speed and memory of the program beside plain programs, on this machine
bench: build
	python3 bench/run.py $(PROGRAM)

## deps      installs the Debian packages that groups of tests need
deps:
ifneq ($(OFFLINE),1)
	@bash tests/install.sh $$(python3 tests/run.py --missing)
endif

## deb       makes a Debian package of the built program, in packaging/out
deb:
	@bash packaging/deb.sh $(PROGRAM)

## install   installs the built program and what goes with it: make install PREFIX=/usr/local
install:
	@PREFIX=$(PREFIX) DESTDIR=$(DESTDIR) bash packaging/install.sh $(PROGRAM)
	@PREFIX=$(PREFIX) DESTDIR=$(DESTDIR) bash packaging/install_gateway.sh

toolchain:
	@command -v rt > /dev/null || \
	    { echo "rt, the toolchain's command, is not on the PATH (README.md)."; exit 1; }
