# All targets do all the set-up there is on a machine that has the Rattle toolchain.
.PHONY: test check lint run tools-test

# Proves every crate from nothing, tries the wrong bodies in must-fail/, runs the tests and the program, and then the tests of
# the tools on that program.
test:
	dev/gate

# Proves one crate, and proves and runs its tests: make check CRATE=sudo_text
check:
	@test -d "crates/$(CRATE)/src" || { echo "usage: make check CRATE=NAME, of:" $$(ls crates); exit 2; }
	cd crates/$(CRATE) && rt check && rt test

# Checks all Python by flake8 and mypy, as pyproject.toml configures them, and the format and the widths of the crates.
lint:
	tools/tests/prepare
	dev/style

# Runs the tests of the commands in tools/ and dev/ alone: all of them, those of a file, or those of a name.
#   make tools-test FILE=test_page.py     make tools-test FILE=test_runs.py TEST=table_check
# What they need is installed where that is allowed. Missing packages are reported, and the tests that need them are skipped;
# so are those that need a program where none is found.
FILE ?= test*.py
tools-test:
	tools/tests/prepare
	/usr/bin/python3 -m unittest discover -s tools/tests -p '$(FILE)' $(if $(TEST),-k '$(TEST)')

# Builds the programs, checks the example policy, writes two of its aliases out, audits the example's requests, and shows what
# sudo reads or judges otherwise there, the requests beside their answers, who can become root, the grants of a user on a host,
# what reaches nobody, how many requests each rule decides, and what a change of the policy does for a user. Status 5 says that
# something was found.
DIRECTORY := --users ../../examples/users.csv --hosts ../../examples/hosts.csv
KNOWN := ../../examples/sudoers $(DIRECTORY)
AUDITED := $(KNOWN) web=../../examples/web.csv ops=../../examples/ops-odd.csv ops=../../examples/ops-even.csv
run:
	cd crates/sudo_audit && rt run -- check ../../examples/sudoers
	cd crates/sudo_audit && rt run -- expand ../../examples/sudoers cmnd SAFE
	cd crates/sudo_audit && rt run -- expand ../../examples/sudoers host SERVERS
	cd crates/sudo_audit && rt run -- audit $(AUDITED)
	cd crates/sudo_review && rt run -- cautions ../../examples/sudoers || [ $$? -eq 5 ]
	cd crates/sudo_review && rt run -- report $(AUDITED)
	cd crates/sudo_review && rt run -- roots $(KNOWN) --all
	cd crates/sudo_review && rt run -- grants $(KNOWN) --user wim --host web1.example.org
	cd crates/sudo_review && rt run -- subjects $(KNOWN) || [ $$? -eq 5 ]
	cd crates/sudo_review && rt run -- rules $(AUDITED)
	cd crates/sudo_review && rt run -- compare ../../examples/sudoers ../../examples/sudoers-next $(DIRECTORY) --user wim || [ $$? -eq 5 ]

include packaging/install.mk
