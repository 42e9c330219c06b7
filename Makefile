# `make help` lists what there is, a line each.

PREFIX ?= /usr/local
# What `make case` tries: the proved program, else the compiled one.
TRIED = $(firstword $(wildcard build/desk build/unproved/program))

.PHONY: help run try check case desk panel test sweep wrong-bodies bench page install package clean python

help: ## lists these targets
	@sed -n 's/^\([a-z-]*\):.*## /make \1: /p' $(MAKEFILE_LIST)

run: python ## replays the example; in a fresh clone it compiles for some 3 minutes first
	@python3 scripts/run_desk

try: python ## leaves build/unproved/desk, compiled and not proved, in some 3 minutes
	@python3 scripts/build_unproved

check: ## proves one crate: make check CRATE=window
	@cd crates/$(CRATE) && rt check

case: ## tries one case, or what has a word in its name: make case NAME=a-number-waits
	@tests/run -k $(NAME) $(TRIED)

desk: python ## proves and builds build/desk
	@python3 scripts/build_desk

panel: python ## proves and builds build/panel, a panel's end
	@python3 scripts/build_desk panel

test: python ## the gate: every proof, the wrong bodies at the gate, all tests
	@python3 scripts/gate

sweep: desk ## refuses the program each request for memory, which takes hours
	@tests/run --sweep -k allocations build/desk

wrong-bodies: python ## tries the wrong bodies beside the gate
	@python3 scripts/wrong_bodies

bench: desk ## prints what the program takes, beside a plain C++ program
	@python3 scripts/bench.py
	@python3 scripts/bench_database.py
	@python3 scripts/bench_server.py
	@python3 scripts/bench_schedules.py
	@python3 scripts/bench_clock.py

page: desk ## shows the page for staff over the example office
	@python3 scripts/show_page

install: desk panel ## copies the programs, the backup, the units and the page below PREFIX
	install -D -m 755 build/desk $(DESTDIR)$(PREFIX)/bin/desk
	install -D -m 755 build/panel $(DESTDIR)$(PREFIX)/bin/panel
	install -D -m 755 deploy/desk-backup $(DESTDIR)$(PREFIX)/bin/desk-backup
	install -D -m 755 deploy/desk-record $(DESTDIR)$(PREFIX)/bin/desk-record
	install -D -m 755 deploy/desk-unit $(DESTDIR)$(PREFIX)/lib/desk/desk-unit
	install -D -m 644 -t $(DESTDIR)$(PREFIX)/lib/systemd/system deploy/*.service deploy/*.timer
	for unit in desk.service desk-tick.service desk-tick.timer desk-backup.service desk-backup.timer; do \
		sed -f deploy/instance.sed deploy/$$unit > $(DESTDIR)$(PREFIX)/lib/systemd/system/$${unit%.*}@.$${unit##*.}; \
	done
	install -D -m 644 -t $(DESTDIR)$(PREFIX)/share/desk/page deploy/page/*

package: python ## leaves build/desk_VERSION_amd64.deb, a package for Debian
	@python3 scripts/package

clean: ## removes what was built and kept
	rm -rf build crates/*/out

python:
	@command -v python3 > /dev/null || { echo 'desk: python3 (3.11 or later) is not on the PATH' >&2; exit 2; }
