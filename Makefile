# The work of the repository, from a clone with the toolchain's `rt` on the path. Each target says first what it lacks.

# Where the programs are installed: in PREFIX/bin, with what belongs to them in PREFIX/share.
PREFIX = /usr/local

.PHONY: demo program install uninstall test mutants extension test-editors test-page prove gate build bench

# Builds the program without its proofs, and shows the first example: its source, then each command with its answer; and where a picture is.
demo:
	@tools/needs $@ rt python3
	@echo "A build without proofs: it takes a minute or two, and shows what the program does. 'make prove' proves it."
	@tools/quick_build ispc_cli
	@echo "examples/first.ispc:"
	@cat examples/first.ispc
	@crates/ispc_cli/out/quick examples/first.ispc < examples/first.commands | paste -d '\n' examples/first.commands - | sed '1~2s/^/> /'
	@echo "A run as a picture, where lanes part and join: examples/lanes.svg"

# Builds both programs that people call without their proofs, in two to four minutes: crates/ispc_cli/out/quick and crates/rinddecade/out/quick.
# They are about as fast as the proved ones; nothing of them is proved or checked as they run.
program:
	@tools/needs $@ rt python3
	tools/quick_build

# Puts both programs into PREFIX/bin: the proved ones where they are built of the files as they are, else the quick ones, and says which. Manual
# pages, completions for bash, zsh and fish, and the editors' files go into PREFIX/share.
install:
	@tools/needs $@ rt python3
	@tools/install "$(DESTDIR)$(PREFIX)"

# Takes away what `make install` has put there.
uninstall:
	@tools/needs $@ rt python3
	@tools/install --remove "$(DESTDIR)$(PREFIX)"

# Every test and every stored run, without proofs.
test:
	@tools/needs $@ rt python3 cc
	tools/run_tests

# Turns bodies of the front ends, and says which of them no test finds; some twenty minutes of a processor.
mutants:
	@tools/needs $@ rt python3 cc
	tools/mutants

# Packs the extension of VS Code from editors/vscode: editors/vscode/out/rinddecade.vsix.
extension:
	@tools/needs $@ python3
	tools/pack_extension

# Emacs, Neovim, Kate's highlighter, and node with VS Code's extension try editors/ with the quick build, which is built first, and so does a
# client of the protocol's types for Go. Debian's packages have them.
test-editors:
	@tools/needs $@ rt python3 apt-get
	tools/quick_build rinddecade
	apt-get update
	apt-get install -y --no-install-recommends emacs-nox elpa-dap-mode neovim nodejs libkf5syntaxhighlighting-tools golang-go golang-github-google-go-dap-dev
	tools/test_editors "$(CURDIR)/crates/rinddecade/out/quick"

# Debian's chromium opens pages of runs of the quick build, which is built first.
test-page:
	@tools/needs $@ rt python3 apt-get
	tools/quick_build rinddecade
	apt-get update
	apt-get install -y --no-install-recommends chromium
	tools/test_pages crates/rinddecade/out/quick

# Proves what is not proved yet.
prove:
	@tools/needs $@ rt python3
	tools/prove

# The whole gate: every proof from nothing, the edits that must be refused, the tests and the stored runs.
gate:
	@tools/needs $@ rt python3
	rt ci

# Proves both programs and builds them, and runs each once, on its stored run.
build:
	@tools/needs $@ rt python3
	@echo "Proving the programs and all below them takes an hour or more the first time, and minutes where little has changed."
	@echo "'make program' builds them without their proofs in minutes."
	cd crates/ispc_cli && rt run < stdin
	cd crates/rinddecade && rt run -- debug data/first.ispc < stdin
	@echo "The proved programs are crates/ispc_cli/out/ispc_cli and crates/rinddecade/out/rinddecade"

# Times of the lane kernels and of an expression's code beside their plain loops, as ratios; of the two records of old words; and of the
# built program: steps, prints and moves a second, and ratios, also to plain C and to gdb where they are on the path, and the way back over a
# long run.
bench:
	@tools/needs $@ rt python3
	cd crates/kernel_bench && rt run -- signed && rt run -- unsigned
	cd crates/expression_bench && rt run -- 1000000
	cd crates/record_bench && rt run -- 100000
	tools/bench_program
