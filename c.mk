# The C programs: a station's host, trials of the two calls, benchmark, differential runs, conformance.
#
#   make host          target/c/engine/station and trials
#   make trials        runs them and compares their reports: as built, with sanitizers, under valgrind
#   make bench         reading and evaluating, the engine beside the baseline
#   make differ        the engine against the baseline (SECONDS=10 SEED=1)
#   make stack         how much stack the calls need
#   make conformance   the stored cases through the two calls
#   make prologues     whether compiled functions make their stack frames first (tests/check_prologues.py says why)
#   make names         whether the library needs nothing of the C library but memset
#
# BASELINE=1 puts the baseline in the place of the engine.
CFLAGS = -std=c11 -O2 -g -Wall -Wextra -Wconversion -Wshadow -Wpedantic -D_DEFAULT_SOURCE -Iinclude
SANITIZERS = -fsanitize=address,undefined -fno-sanitize-recover=all
SECONDS = 10
SEED = 1

ifdef BASELINE
OUT = target/c/baseline
ENGINE = $(OUT)/baseline.o
NAMES = -Dmessage_book_read=baseline_read -Dmessage_book_evaluate=baseline_evaluate
else
OUT = target/c/engine
ENGINE = target/staticlib/libengine.a
NAMES =
endif
BUILD = mkdir -p $(@D) && $(CC) $(CFLAGS) $(NAMES)
HEADERS = include/message_book.h $(wildcard host/*.h bench/*.h bench/baseline/*.h)

.PHONY: host trials bench differ stack conformance prologues names books
host: $(OUT)/station $(OUT)/trials
trials: host $(OUT)/station-sanitized $(OUT)/trials-sanitized
	sh host/check.sh $(OUT)
bench: $(OUT)/bench
	$< bench/books
differ: $(OUT)/differ
	$< bench/books $(SECONDS) $(SEED)
stack: $(OUT)/stack
	$< bench/books
conformance: $(OUT)/conformance
	$< tests/vectors/*.txt
prologues: target/staticlib/libengine.a
	python3 tests/check_prologues.py $< $(wildcard $(DESK))
names: target/staticlib/libengine.a
	@names=$$(nm -u $< | awk 'NF == 2 { print $$2 }' | sort -u | xargs); echo "$< needs from outside: $$names"; test "$$names" = memset

# The books of the benchmark, written anew by Python; they are kept in the repository.
books:
	python3 bench/books.py

# What C programs link: crate engine_c, the engine's two calls for callers in C, once it is proved.
target/staticlib/libengine.a: $(wildcard crates/*/src/*.rt)
	cd crates/engine_c && rt lib
	mkdir -p $(@D) && cp crates/engine_c/out/libengine_c.a $@
# Where a loop comes to lie must not depend on what is linked before it: unaligned, the baseline's evaluating moves by a tenth.
$(OUT)/baseline.o: bench/baseline.c $(HEADERS)
	$(BUILD) -falign-functions=64 -falign-loops=32 -c $< -o $@
$(OUT)/station $(OUT)/trials: $(OUT)/%: host/%.c $(ENGINE) $(HEADERS)
	$(BUILD) $< $(ENGINE) -o $@
$(OUT)/station-sanitized $(OUT)/trials-sanitized: $(OUT)/%-sanitized: host/%.c $(ENGINE) $(HEADERS)
	$(BUILD) $(SANITIZERS) $< $(if $(BASELINE),bench/baseline.c,$(ENGINE)) -o $@
$(OUT)/bench $(OUT)/differ $(OUT)/stack: $(OUT)/%: bench/%.c $(OUT)/baseline.o $(ENGINE) $(HEADERS)
	$(BUILD) $< $(sort $(OUT)/baseline.o $(ENGINE)) -pthread -o $@
$(OUT)/conformance: tests/conformance/conformance.c $(ENGINE) $(HEADERS)
	$(BUILD) $< $(ENGINE) -o $@
