# make demo: the worked example of document 01, computed by the definitions and proved; then its lines
# make test: the gate

WORKED := crates/machine/specs/Worked.antt

.PHONY: demo test

# The lines shown are the very bytes that crates/machine/proofs/Worked.antt proves the worked file to print.
demo:
	@log=$$(cd crates/machine && rt check 2>&1) || { printf '%s\n' "$$log"; exit 1; }
	@sed '1,/^worked_text =/d' $(WORKED) | grep -o '[0-9][0-9]*' | awk '{ printf "%c", $$1 }'

test:
	@bash .ci/run
