# make run      answers a sample Map-Register, proved or not: about a minute on a fresh machine, where it compiles out/lispd-unproved
# make lispd    proves the program and builds it as out/lispd
# make library  proves the library for C programs and builds it as out/liblisp_registration.a
# make demo     a Map-Server and two routers on loopback, of which the Map-Server is killed and comes back: some seconds
# make test     the gate: proves everything from nothing, tries the wrong bodies, runs the tests and the samples. out/test.log has the details
# make quick    NAME=lisp_server: proves that crate over what is kept of those below, and runs what is stored over the program built last
# make mutants  tries the wrong bodies of mutants/*.toml, over what the gate kept; NAME=lisp_server those of one crate. mutants/MUTANTS.log
#               has the last answers
# make slips    prints the table of wrong definitions and plants them: an example of theirs has to refuse each; NAME=lisp_client those of one list
# make docs     writes what is generated of the documents: docs/CONTRACTS.md, and tables of docs/ARCHITECTURE.md and docs/EMBEDDING.md
# make fuzz     plays schedules that are drawn: COUNT of them from SEED on, over out/lispd; as many of which Map-Requests are made, whose
#               replies an ITR keeps; reads as many drawn Map-Requests, Map-Replies and encapsulated messages; and sends
#               DATAGRAMS that are drawn to nodes that answer Map-Requests
# make bench    measures the codec, the tag, registrations and look-ups, by the library for C programs; and of out/lispd saves on a disk,
#               the reading of configurations, plays, a server, one that takes other sites, and one that answers Map-Requests
# make install  installs the program (out/lispd), its manual pages, completions, units and samples: PREFIX=/usr/local, DESTDIR=
# make install-library installs the library for C programs, with its header and its pkg-config file
# make uninstall removes what both installed
# make dist     packs both as out/lispd-VERSION.tar.gz. GATE=LOG names the log of a `make test`, whose closing lines go with them
# make deb      packs what `make install` installs as a package for Debian, out/lispd_VERSION_ARCHITECTURE.deb, with Debian's tools
# make believe  counts the definitions that the contracts of `play`, `World::run` and `Server::receive` stand on
# make clean    removes what was built
.PHONY: run lispd library demo test quick mutants slips docs fuzz bench install install-library uninstall dist deb believe clean
# Each proof takes all processors, and two at a time would write the same files.
.NOTPARALLEL:

run:
	@tools/run

lispd:
	@tools/build

library:
	@tools/library

demo: lispd
	@tools/demo

# No crate may use lisp_memory's own proof that the machine's memory may be refused (the module Witness), or unfold what says so. Of its
# definitions others name those of four modules, which have no proof: grep prints whatever else they name. The modules Asked say that memory ran
# out as C's configuration was read, and that a shared database did a commit: each in the proof of one call alone.
test:
	@! grep -roE 'Rattle\.lisp_memory[.A-Za-z_]*|lisp_memory::(specs|proofs)' crates --include=*.antt --include=*.rt --exclude-dir=lisp_memory --exclude-dir=out | grep -vE ':Rattle\.lisp_memory\.specs\.(Appending|Inserting|Refusal|Room)\.?$$'
	@! grep -rE '(Starting|Groups)(\.|::)Asked' crates --include=*.antt --include=*.rt --exclude-dir=out | grep -vE '^crates/(lisp_registration/proofs/starting/read|lisp_database_store/proofs/.*/SharedDatabase/commit)/'
	@! grep -rE 'Witness|unfolding.*MachineMayRefuse' crates --include=*.antt --include=*.rt --exclude-dir=lisp_memory --exclude-dir=out
	@tools/docs --check
	@tools/gate

quick:
	@tools/quick $(NAME)

mutants:
	@tools/mutants $(NAME)

slips:
	@tools/slips $(NAME)

docs:
	@tools/docs

SEED = 1
COUNT = 10000
DATAGRAMS = 1000000
fuzz: lispd
	@tests/fuzz.py out/lispd $(SEED) $(COUNT)
	@tests/replies.py out/lispd $(SEED) $(COUNT)
	@tests/noise.py out/lispd $(SEED) $(DATAGRAMS)
	@mkdir -p out
	@cd crates/lisp_readings && rt run < /dev/null > ../../out/readings.log 2>&1 || { cat ../../out/readings.log >&2; exit 1; }
	@tests/requests.py crates/lisp_readings/out/lisp_readings $(SEED) $(COUNT)

bench: lispd library
	@tools/bench_library
	@tools/bench_saves
	@tools/bench_play
	@tools/bench_server
	@tools/bench_reload
	@tools/bench_asked
	@tools/bench_resolve

PREFIX = /usr/local
PROGRAM = out/lispd
LIBRARY = out/liblisp_registration.a
ROOT = $(DESTDIR)$(PREFIX)
VERSION := $(shell sed -n 's/.*\.version("\(.*\)").*/\1/p' crates/lispd_cli/src/command_line.rt)
PAGES = share/man/man1/lispd.1 share/man/man5/lispd.toml.5
UNITS = lib/systemd/system/lispd-server@.service lib/systemd/system/lispd-router@.service
# Where zsh looks for completions; below /usr, where a package of Debian's puts them.
ZSH = share/zsh/$(if $(filter /usr,$(PREFIX)),vendor-completions,site-functions)/_lispd
BASH = share/bash-completion/completions/lispd
SAMPLES = $(addprefix share/doc/lispd/examples/,configuration.toml ask-group.conf alerts.yml)
FOR_C = lib/liblisp_registration.a include/lisp_registration.h lib/pkgconfig/lisp_registration.pc

# $(call put,FILE,PATH,KIND): installs a file below PREFIX, with the version, PREFIX, the program's folder and the kind of a node filled in.
put = install -D -m 644 $(1) $(ROOT)/$(2) && \
	sed -i 's|@VERSION@|$(VERSION)|; s|@PREFIX@|$(PREFIX)|; s|@BINDIR@|$(PREFIX)/bin|; s|@KIND@|$(3)|' $(ROOT)/$(2)

# Where the program or the library is there it is installed as it is: what one user built another may install.
out/lispd:
	@tools/build

out/liblisp_registration.a:
	@tools/library

install: $(PROGRAM)
	@install -D -m 755 $(PROGRAM) $(ROOT)/bin/lispd
	@$(call put,docs/lispd.1,share/man/man1/lispd.1)
	@$(call put,docs/lispd.toml.5,share/man/man5/lispd.toml.5)
	@$(call put,packaging/lispd@.service.in,lib/systemd/system/lispd-server@.service,server)
	@$(call put,packaging/lispd@.service.in,lib/systemd/system/lispd-router@.service,router)
	@sed -i '/^# A Map-Server is told/,/^ExecReload=/d' $(ROOT)/lib/systemd/system/lispd-router@.service
	@$(call put,examples/configuration.toml,share/doc/lispd/examples/configuration.toml)
	@$(call put,packaging/ask-group.conf,share/doc/lispd/examples/ask-group.conf)
	@$(call put,packaging/alerts.yml,share/doc/lispd/examples/alerts.yml)
	@tools/completions $(PROGRAM) $(ROOT)/$(BASH) $(ROOT)/$(ZSH)

install-library: $(LIBRARY)
	@install -D -m 644 $(LIBRARY) $(ROOT)/lib/liblisp_registration.a
	@install -D -m 644 include/lisp_registration.h $(ROOT)/include/lisp_registration.h
	@$(call put,packaging/lisp_registration.pc.in,lib/pkgconfig/lisp_registration.pc)

uninstall:
	@cd $(ROOT) && rm -f bin/lispd $(PAGES) $(PAGES:=.gz) $(UNITS) $(BASH) $(ZSH) $(SAMPLES) $(FOR_C)
	@cd $(ROOT)/share && if [ -d doc/lispd ]; then find doc/lispd -type d -empty -delete; fi

dist: $(PROGRAM) $(LIBRARY)
	@rm -rf out/dist
	@$(MAKE) -s install install-library DESTDIR=out/dist
	@tools/dist out/dist$(PREFIX) $(VERSION) $(GATE)

deb: $(PROGRAM)
	@tools/deb $(PROGRAM) $(VERSION)

believe:
	@tools/believe lisp_player::play lisp_world::World::run lisp_server::Server::receive

clean:
	rm -rf out crates/*/out
