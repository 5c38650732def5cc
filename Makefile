# make test: every test, ending with one line 'N passed, M failed'.
# make bench: listings against an enumerator in Rust, SQLite, PostgreSQL, networkx, igraph and graph-tool, and the judge's cost on ambiguous
#   patterns; or, with BENCH_BEFORE=ARCHIVE, an archive of an earlier state against the present one.
# make hunt SEED=...: pages over 100 ms on random graphs and patterns, their inputs left in target/hunt.
# make fuzz: the exported functions on made-up inputs, for FUZZ_SECONDS (60).
# make run: two listings of a sample record, the chains of maps that lead to the present one, and the processors with the chains of
#   their maps; each in numbers, then for a person.
# make lib: the archive for C, target/staticlib/libgpc.a.
# make install PREFIX=...: archive, header and pkg-config file under a folder; DESTDIR is put before it where files are staged.
# make examples: the tools of examples/, in target/examples.

PREFIX = /usr/local
to = $(DESTDIR)$(abspath $(PREFIX))

.PHONY: test run bench hunt fuzz lib install examples

test:
	@bash tests/run

run:
	@bash samples/run

bench:
	@bash bench/run

hunt:
	@bash bench/hunt --seed $(or $(SEED),1)

lib:
	@bash tests/c/archive

install: lib
	install -d "$(to)/lib/pkgconfig" "$(to)/include"
	install -m 644 target/staticlib/libgpc.a "$(to)/lib"
	install -m 644 include/gpc.h "$(to)/include"
	sed 's|@PREFIX@|$(abspath $(PREFIX))|' include/gpc.pc.in >"$(to)/lib/pkgconfig/gpc.pc"

examples:
	@bash examples/build encode host show

fuzz:
	@bash fuzz/run
