# Chrastoun: build, run, test, measure, install. `make help` lists the targets.
CC ?= cc
CXX ?= c++
CFLAGS ?= -std=c11 -Wall -Wextra -O2
SANITIZE ?= -fsanitize=address,undefined -fno-sanitize-recover=all -g
RULE ?= samples/first_inside.rul
export RULE
PREFIX ?= /usr/local
BINDIR ?= $(PREFIX)/bin
LIBDIR ?= $(PREFIX)/lib
INCLUDEDIR ?= $(PREFIX)/include
MANDIR ?= $(PREFIX)/share/man

# The header has the version; a soname lasts as long as its first number.
VERSION := $(shell sed -n 's/^.define WS2S_VERSION "\(.*\)"$$/\1/p' include/ws2s.h)
SONAME := libws2s.so.$(firstword $(subst ., ,$(VERSION)))

ARCHIVE := target/staticlib/libws2s.a
SHARED := target/lib/libws2s.so.$(VERSION)
COMMAND := target/bin/ws2s
VERDICT := target/bin/verdict
HOST := target/host
HEADER := include/ws2s.h
ORACLE := tests/oracle/oracle.c tests/oracle/import.c tests/oracle/join.c
TEST_HEADERS := $(wildcard tests/host/*.h tests/oracle/*.h) $(HEADER)
CLI := cli/ws2s.c cli/words.c cli/drawing.c cli/text.c
CLI_HEADERS := cli/words.h cli/drawing.h cli/text.h
VECTORS := $(wildcard tests/vectors/base/*.txt)
SAMPLES := $(wildcard samples/*.rul)
TEXTS := $(wildcard samples/*.mona)
MADE_TEXTS := made:longest made:chain made:nests made:open
MAN1 := $(wildcard man/*.1)
MAN3 := $(wildcard man/*.3)

.PHONY: help all run library command test host-test attack larger example bench install uninstall clean FORCE
.DELETE_ON_ERROR:
# rt proves on all cores by itself. That no two of them run on one target/ is tools/prove.sh's care.
.NOTPARALLEL:

help:
	@echo 'make run [RULE=file]   prove and build the verdict program, and decide a rule strip'
	@echo 'make library           prove the library and build its archive and shared library, under target/'
	@echo 'make command           the same, and build the command, target/bin/ws2s'
	@echo 'make all               all of these'
	@echo 'make test              the gate: prove everything and run every test'
	@echo 'make host-test         what the gate tests beside the proofs: header, vectors, attack, stack, depth, programs, install, documents, make'
	@echo 'make attack            a longer attack on the library [SEED=n CALLS=n]'
	@echo 'make larger            look for a rule that the verdict program answers larger [SECONDS=n]'
	@echo 'make example           the example host program on a rule strip [RULE=file NAMES="belt seat"]'
	@echo 'make bench             the library beside unproved code and, where it is installed, MONA'
	@echo 'make install           header, libraries, pkg-config files, command, verdict program, manual pages [PREFIX=/usr/local DESTDIR=]'
	@echo 'make uninstall         remove what install put there [PREFIX=/usr/local DESTDIR=]'
	@echo 'make clean             remove target/ and crates/*/out, where everything is built'

all: library command $(VERDICT)

run: $(VERDICT)
	@$(VERDICT) < "$$RULE"

library: $(ARCHIVE) $(SHARED)

command: $(COMMAND)

test:
	.ci/run

FORCE:

$(VERDICT): FORCE
	@tools/prove.sh program verdict

$(ARCHIVE): FORCE
	@tools/prove.sh library ws2s

$(SHARED): $(ARCHIVE) $(HEADER) Makefile
	@mkdir -p $(@D)
	$(CC) $(LDFLAGS) -shared -Wl,-soname,$(SONAME) -Wl,-z,defs -Wl,--whole-archive $(ARCHIVE) -Wl,--no-whole-archive -o $@
	@ln -sf $(@F) $(@D)/$(SONAME) && ln -sf $(SONAME) $(@D)/libws2s.so

# A program of the C files among what it is made of, and the archive. Tests share most headers, so each is made anew if any has changed.
define link
@mkdir -p $(@D)
$(CC) $(CFLAGS) -Iinclude -Itests/oracle -Itests/host $(LDFLAGS) $(filter %.c,$^) $(ARCHIVE) -o $@
endef

$(COMMAND): $(CLI) $(CLI_HEADERS) $(HEADER) $(ARCHIVE)
	$(link)

$(HOST)/vectors: tests/host/vectors.c $(TEST_HEADERS) $(ARCHIVE)
	$(link)

# The same over the shared library.
$(HOST)/vectors-shared: tests/host/vectors.c $(TEST_HEADERS) $(SHARED)
	@mkdir -p $(@D)
	$(CC) $(CFLAGS) -Iinclude $< -Ltarget/lib -lws2s -Wl,-rpath,'$$ORIGIN/../lib' -o $@

$(HOST)/attack: tests/host/attack.c $(ORACLE) $(TEST_HEADERS) $(ARCHIVE)
	$(link)

$(HOST)/header: tests/host/header.c $(TEST_HEADERS) $(ARCHIVE)
	$(link)

$(HOST)/verdict: tests/host/verdict.c $(ORACLE) $(TEST_HEADERS) $(ARCHIVE)
	$(link)

$(HOST)/stack: tests/host/stack.c $(ORACLE) $(TEST_HEADERS) $(ARCHIVE)
	$(link) -pthread

$(HOST)/depth: tests/host/depth.c $(TEST_HEADERS) $(ARCHIVE)
	$(link)

$(HOST)/command: tests/host/command.c $(CLI) $(CLI_HEADERS) $(TEST_HEADERS) $(ARCHIVE)
	@mkdir -p $(@D)
	$(CC) $(CFLAGS) $(SANITIZE) -Iinclude -Dmain=command_main -c cli/ws2s.c -o $@.o
	$(CC) $(CFLAGS) $(SANITIZE) -Iinclude $(filter-out cli/ws2s.c,$(filter %.c,$^)) $@.o $(ARCHIVE) -o $@

$(HOST)/bench: bench/bench.c $(ORACLE) $(TEST_HEADERS) $(ARCHIVE)
	$(link)

$(HOST)/example: examples/host.c $(HEADER) $(ARCHIVE)
	$(link)

$(HOST)/larger: tests/larger/larger.c tests/oracle/atom.h tests/host/chance.h
	@mkdir -p $(@D)
	$(CC) $(CFLAGS) -Itests/oracle -Itests/host $< -o $@

# make_notices.sh proves in a copy of the tree, beside the tests that leave a core idle; those behind it build, too.
NOTICES := $(HOST)/make_notices
host-test: export CC := $(CC)
host-test: export CXX := $(CXX)
host-test: export SANITIZE := $(SANITIZE)
host-test: $(foreach t,vectors vectors-shared attack header stack depth verdict command,$(HOST)/$(t)) $(COMMAND) $(VERDICT)
	@rm -f $(NOTICES)
	{ tests/host/make_notices.sh; echo "status $$?"; } > $(NOTICES) 2>&1 &
	tests/host/exports.sh crates/ws2s_c/src/lib.rt $(HEADER) $(ARCHIVE) $(SHARED)
	tests/host/header.sh $(ARCHIVE)
	$(HOST)/header
	tests/host/lines.sh
	$(HOST)/vectors $(VECTORS) tests/vectors/heavy.txt
	$(HOST)/vectors-shared $(VECTORS)
	$(HOST)/attack 1 300000
	$(HOST)/stack $(VECTORS) tests/vectors/heavy.txt
	tests/host/depth.sh $(HOST)/depth $(COMMAND) $(ARCHIVE) $(VECTORS) tests/vectors/heavy.txt $(SAMPLES)
	$(HOST)/verdict $(VERDICT) $(VECTORS)
	tests/host/command.sh $(COMMAND)
	$(HOST)/command 1 1000
	tests/host/documents.sh $(VERDICT) $(COMMAND) $(ARCHIVE)
	tests/host/texts.sh $(COMMAND)
	@for second in $$(seq 900); do ! grep -q '^status' $(NOTICES) || break; sleep 1; done; cat $(NOTICES); grep -qx 'status 0' $(NOTICES)
	tests/host/install.sh

SEED ?= 2
CALLS ?= 5000000
attack: $(HOST)/attack
	$(HOST)/attack $(SEED) $(CALLS)

# The variables, and the records for which the verdict program then has room.
SECONDS ?= 60
larger: $(HOST)/larger
	for rules in '1 64' '2 32' '3 16' '4 8' '5 4' '6 2' '7 1'; do $(HOST)/larger -t $(SECONDS) $$rules || exit 1; done

example: $(HOST)/example
	@$(HOST)/example "$$RULE" $(NAMES)

COMPARED := $(foreach f,decide decide_large decide_order joined clash clash_lists join join_rules,tests/vectors/base/$(f).txt)
TIMED := $(foreach f,tests/vectors/heavy bench/sing bench/leftovers bench/clash bench/join bench/joined bench/worst,-l $(f).txt)
COUNTED := $(foreach l,1 2 3 4 5,tests/vectors/heavy.txt:$(l)) $(foreach l,1 2,bench/sing.txt:$(l)) $(foreach l,1 2 3 4 5 6 7 8 9,bench/clash.txt:$(l)) $(foreach l,1 2,bench/join.txt:$(l)) $(foreach l,1 2 3 4 5 6,bench/joined.txt:$(l))
bench: $(HOST)/bench $(VERDICT) $(COMMAND)
	$(HOST)/bench -v tests/vectors/base/decide.txt $(TIMED) $(SAMPLES) $(MADE_TEXTS) $(TEXTS)
	bench/instructions.sh $(HOST)/bench $(COUNTED) $(SAMPLES) $(MADE_TEXTS) $(TEXTS)
	bench/leftovers.sh $(HOST)/bench
	bench/mona.py --texts $(COMMAND) $(TEXTS)
	if command -v mona > /dev/null; then bench/mona.py --time $(VERDICT) $(SAMPLES) && bench/mona.py --compare $(COMPARED); else echo 'MONA is not installed'; fi

# Where things go. The names may have spaces in them.
INSTALLED = $(foreach f,$(MAN1),"$(DESTDIR)$(MANDIR)/man1/$(notdir $(f))") $(foreach f,$(MAN3),"$(DESTDIR)$(MANDIR)/man3/$(notdir $(f))") \
    $(foreach f,ws2s verdict,"$(DESTDIR)$(BINDIR)/$(f)") "$(DESTDIR)$(INCLUDEDIR)/ws2s.h" \
    $(foreach f,libws2s.a libws2s.so.$(VERSION) $(SONAME) libws2s.so pkgconfig/ws2s.pc pkgconfig/ws2s-static.pc,"$(DESTDIR)$(LIBDIR)/$(f)")

install: $(VERDICT) $(COMMAND) $(ARCHIVE) $(SHARED)
	@install -d "$(DESTDIR)$(INCLUDEDIR)" "$(DESTDIR)$(LIBDIR)/pkgconfig" "$(DESTDIR)$(BINDIR)" "$(DESTDIR)$(MANDIR)/man1" "$(DESTDIR)$(MANDIR)/man3"
	install -m 644 $(HEADER) "$(DESTDIR)$(INCLUDEDIR)/"
	install -m 644 $(ARCHIVE) "$(DESTDIR)$(LIBDIR)/"
	install -m 755 $(SHARED) "$(DESTDIR)$(LIBDIR)/"
	ln -sf $(notdir $(SHARED)) "$(DESTDIR)$(LIBDIR)/$(SONAME)"
	ln -sf $(SONAME) "$(DESTDIR)$(LIBDIR)/libws2s.so"
	for name in ws2s ws2s-static; do \
	    sed -e 's|@LIBDIR@|$(LIBDIR)|' -e 's|@INCLUDEDIR@|$(INCLUDEDIR)|' -e 's|@VERSION@|$(VERSION)|' packaging/$$name.pc.in \
	        > "$(DESTDIR)$(LIBDIR)/pkgconfig/$$name.pc" || exit 1; \
	done
	install -m 755 $(COMMAND) $(VERDICT) "$(DESTDIR)$(BINDIR)/"
	install -m 644 $(MAN1) "$(DESTDIR)$(MANDIR)/man1/"
	install -m 644 $(MAN3) "$(DESTDIR)$(MANDIR)/man3/"

uninstall:
	rm -f $(INSTALLED)

clean:
	rm -rf target crates/*/out
