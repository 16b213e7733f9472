# make report: the report program on a shipped case. make examples: every shipped case against its stored report.
# make test: the gate. make compare: generated texts through the program and through the tool in tools/.
.PHONY: test report program examples tool compare

CASE ?= examples/two-components.case
TEXTS ?= 2000

PROGRAM = crates/report/out/report

# Prints the report of CASE.
report: program
	@$(PROGRAM) < $(CASE)

# Builds the program; the first time this proves every crate below it.
program:
	@cd crates/report && { said=$$(rt run < /dev/null 2>&1) || { echo "$$said"; exit 1; }; }

# Each shipped case gives its stored report.
examples: program
	@for c in examples/*.case; do $(PROGRAM) < $$c | cmp - $${c%.case}.report || exit 1; echo "$$c ok"; done

# The tool, which computes the same from the rules alone, gives the stored reports too.
tool:
	@for c in examples/*.case; do python3 tools/casetext.py < $$c | cmp - $${c%.case}.report || exit 1; done

# Texts good and damaged through both, and figures of random diaries against the true shares by brute force.
compare: program
	python3 tools/compare.py $(PROGRAM) $(TEXTS)
	python3 tools/diaries.py $(TEXTS)

test: tool
	@tools/gate.sh
