# The Python programs: what document 01 says by an unrelated program, stored cases, random runs.
#
#   make oracle    the unrelated program against 01's own cases and over the stored cases; the tests of the advisers' tools; whether must-fail edits stand and are named
#   make vectors   makes the stored cases anew (about a minute); the same bytes again
#   make fuzz      random cases against the engine's two calls (SECONDS=60); BASELINE=1 takes the baseline
#   make desk      the desk program: long inputs, the stored cases, random cases (SECONDS=60)
.PHONY: oracle vectors fuzz desk
oracle:
	python3 tests/test_named.py
	python3 tests/test_tools.py
	python3 tests/test_prologues.py
	python3 tests/check_edits.py
	python3 tests/check_vectors.py
vectors:
	python3 tests/make_vectors.py
fuzz: target/fuzz/$(if $(BASELINE),baseline,engine).so
	python3 tests/fuzz.py --library $< --prefix $(if $(BASELINE),baseline,message_book) --seconds $(SECONDS)
desk: $(DESK)
	python3 tests/test_desk.py
	python3 tests/check_vectors.py --desk $<
	python3 tests/fuzz.py --desk $< --seconds $(SECONDS)

target/fuzz/engine.so: target/staticlib/libengine.a
	mkdir -p $(@D) && $(CC) -shared -o $@ -Wl,--whole-archive $< -Wl,--no-whole-archive
target/fuzz/baseline.so: bench/baseline.c $(wildcard bench/baseline/*.h)
	mkdir -p $(@D) && $(CC) -O2 -shared -fPIC -Iinclude -o $@ $<
