# make test: what the gate runs. make run: the desk program on document 01's example, or on another INPUT. make try: the same without the proofs, in
# seconds. The C programs' targets stand in c.mk, the Python programs' in tests.mk.
INPUT ?= examples/s.txt
DESK = crates/desk/out/desk
.PHONY: test run try $(DESK)
test:
	bash .ci/run
run: $(DESK)
	@$< < $(INPUT)
try:
	@echo 'make try: compiled without proof; nothing is proved by this' >&2
	@(cd crates/desk && rt try) < $(INPUT)

# The desk program: rt proves what has changed since it was last proved, builds it and runs it.
$(DESK):
	cd crates/desk && rt run < /dev/null > /dev/null

include c.mk
include tests.mk
