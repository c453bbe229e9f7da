# Two commands: run the judge on an example, and test everything.
.PHONY: run test

# Proves and builds the judge, and shows each line of the example with its answer.
run:
	@mkdir -p target
	@(cd crates/judge && rt run < ../../examples/campaign.txt) > target/answers 2> target/run.log || { tail -n 20 target/run.log; exit 1; }
	@paste -d '|' examples/campaign.txt target/answers | sed 's/|/\t/' | expand -t 12

# Every proof, every must-fail edit, every program and test; layout too, which rt ci judges.
test:
	@tools/gate
