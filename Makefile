# make            the proved archive, target/staticlib/libdesk.a, and the desk program over it; both libraries and the
#                 program for this machine, in target/native
# make demo       a busy night on the waiting board, and one report shown figure by figure
# make install    the header, both libraries, the Python module, the desk program and its manual page, under PREFIX;
#                 DESTDIR goes before it
# make uninstall  takes away what install put there
# make install-sql, uninstall-sql
#                 the SQL functions for SQLite and PostgreSQL, those whose headers are here, and the boards' tables
# make test       the gate: every test, the comparison and every proof
# make test-desk  the desk program's tests alone
# make test-library
#                 those of the libraries for this machine, and of the Python module
# make test-sql   those of the SQL functions and of boards in databases, at full size: 200,000 steps of each load
# make measure-sql
#                 adds and takings a second in both engines, and what the join costs
# make compare    the archive and the second program on the same inputs; ARGS='--seed 2 --long' and the like
# make bench      ns per call, ours and the second program's; ROWS=word for the rows whose name has the word
# make growth     docs/growth.svg: how the cost grows with a text's length and a board's used slots
# make fuzz       every call beside the second program under libFuzzer; SECONDS_EACH=60 for each; needs clang
# make replay     the inputs that the fuzzer found, replayed without it
# make coverage   the lines of the second program that the comparison reaches; needs llvm-cov, 19 or later
# make edits      further edits that the prover must refuse, which the gate has no time for; ARGS: the crates
# make clean      removes target/, and what the prover keeps, in crates/NAME/out

PREFIX ?= /usr/local

export CARGO_TARGET_DIR := $(CURDIR)/target/compare

archive := target/staticlib/libdesk.a
program := target/host/eskelvor
version := $(shell sed -n 's/^.define ESK_VERSION "\(.*\)"/\1/p' host/eskelvor.h)
major := $(firstword $(subst ., ,$(version)))

# The archive for this machine's own processor: the proved one, or one made of the same LLVM module.
x86_64 := $(filter x86_64,$(shell uname -m))
native := $(if $(x86_64),$(archive),target/native/libdesk.a)

# What is installed, for this machine. host/native makes the shared library first, so that this one stands for both.
library := target/native/libeskelvor.a
native_program := target/native/eskelvor

# Those that make the proved calls for the comparison, one for each group of calls that it compares.
programs := answer answer_command answer_section answer_config answer_decide answer_join answer_commute answer_board \
	answer_journal answer_gust answer_sheet

.PHONY: install-sql uninstall-sql test-sql measure-sql
.PHONY: all demo possible install uninstall test test-desk test-library compare bench growth fuzz replay coverage edits clean

all: $(archive) $(program) $(native_program)

$(archive): crates.txt $(shell find crates -type f -not -path '*/out/*')
	@echo 'The archive is proved and built; the first time this takes a while.'
	host/native archive

target/native/libdesk.a: $(archive) host/native
	host/native build

$(library): $(archive) host/native host/words.c host/eskelvor.h host/exports.map
	host/native library

$(native_program): $(library) $(wildcard host/desk/*.[ch] host/sql/*.[ch])
	@host/native program eskelvor host/desk/*.c

$(program): $(archive) host/tool host/words.c host/eskelvor.h $(wildcard host/desk/*.[ch] host/sql/*.[ch])
	@host/tool build eskelvor host/desk/*.c

demo: $(program)
	@host/tool run eskelvor night
	@echo
	@host/tool run eskelvor report examples/one.report

# ---- installation ------------------------------------------------------------------------------------------------
# All of it is for this machine, x86-64 or 64-bit Arm: on another kind nothing is put in place. On Arm target/staticlib/libdesk.a,
# target/native/module.bc and module.of are carried over from x86-64 first. The Python module finds the library by the link
# beside it, under any PREFIX.

at := $(DESTDIR)$(PREFIX)
python_at := share/eskelvor/python/eskelvor
python_files := $(notdir $(wildcard python/eskelvor/*.py) python/eskelvor/py.typed)
installed := include/eskelvor.h lib/libeskelvor.a lib/libeskelvor.so.$(version) lib/libeskelvor.so.$(major) \
	lib/libeskelvor.so lib/pkgconfig/eskelvor.pc share/man/man1/eskelvor.1 \
	share/bash-completion/completions/eskelvor bin/eskelvor \
	$(addprefix $(python_at)/,$(python_files) libeskelvor.so.$(major))

possible:
	@host/native possible

install: possible $(native_program)
	@host/native ready
	install -D -m 644 host/eskelvor.h '$(at)/include/eskelvor.h'
	install -D -m 644 $(library) '$(at)/lib/libeskelvor.a'
	install -D -m 755 target/native/libeskelvor.so.$(version) '$(at)/lib/libeskelvor.so.$(version)'
	ln -sf libeskelvor.so.$(version) '$(at)/lib/libeskelvor.so.$(major)'
	ln -sf libeskelvor.so.$(major) '$(at)/lib/libeskelvor.so'
	install -D -m 644 host/desk/eskelvor.1 '$(at)/share/man/man1/eskelvor.1'
	install -D -m 644 host/desk/eskelvor.bash '$(at)/share/bash-completion/completions/eskelvor'
	install -D -m 644 host/eskelvor.pc.in '$(at)/lib/pkgconfig/eskelvor.pc'
	sed -i -e 's|@PREFIX@|$(PREFIX)|' -e 's|@VERSION@|$(version)|' '$(at)/lib/pkgconfig/eskelvor.pc'
	install -D -m 755 $(native_program) '$(at)/bin/eskelvor'
	for file in $(python_files); do install -D -m 644 "python/eskelvor/$$file" '$(at)/$(python_at)/'"$$file" || exit 1; done
	ln -sf ../../../../lib/libeskelvor.so.$(major) '$(at)/$(python_at)/libeskelvor.so.$(major)'

uninstall:
	for file in $(installed); do rm -f '$(at)/'"$$file"; done
	rm -rf '$(at)/$(python_at)/__pycache__'
	-rmdir '$(at)/$(python_at)' '$(at)/share/eskelvor/python' '$(at)/share/eskelvor'

# The extension for PostgreSQL goes where pg_config says; PG_CONFIG names another one.
install-sql: possible $(library)
	DESTDIR='$(DESTDIR)' PREFIX='$(PREFIX)' host/sql/build install

uninstall-sql:
	DESTDIR='$(DESTDIR)' PREFIX='$(PREFIX)' host/sql/build uninstall

# ---- tests and measurements --------------------------------------------------------------------------------------

test:
	.ci/run

test-desk: $(program) $(native_program)
	host/test/desk/run

test-library: $(native_program)
	host/test/library/run
	python/tests/run

test-sql: $(native_program) $(program)
	@cd compare && cargo build --release --offline --locked --quiet
	host/sql/test/run full
	host/sql/test/run sanitized

measure-sql: $(library)
	@cd compare && cargo build --release --offline --locked --quiet
	host/sql/test/run measure

compare: $(archive)
	@for program in $(programs); do host/tool build $$program host/test/$$program.c || exit 1; done
	@cd compare && cargo build --release --offline --locked --quiet
	@target/compare/release/compare $(ARGS)

bench: $(native)
	@cd compare && cargo build --release --offline --locked --quiet
	@target/compare/release/bench '$(ROWS)'

growth: $(native)
	@cd compare && cargo build --release --offline --locked --quiet
	@target/compare/release/bench growth >target/growth.txt
	@target/compare/release/plot <target/growth.txt >docs/growth.svg
	@cat target/growth.txt

SECONDS_EACH ?= 60

fuzz: $(archive)
	host/fuzz/run all $(SECONDS_EACH)

replay: $(archive)
	host/fuzz/run replay

coverage: $(archive)
	@for program in $(programs); do host/tool build $$program host/test/$$program.c || exit 1; done
	@compare/coverage $(ARGS)

edits:
	.ci/more-edits $(ARGS)

clean:
	rm -rf target crates/*/out
