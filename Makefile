# make demo: the main job on an example table.
# make test: the gate, which .ci/run calls.
# make quick: what someone who changes something wants to see soon.
# make bench: the library beside an interpreter written in C; make instructions counts instead of timing.
ifeq ($(shell sh -c 'command -v rt'),)
$(error rt, the command of the Rattle kit, is not on the PATH: nothing is proved or compiled without it)
endif

export CARGO_TARGET_DIR := $(CURDIR)/build/cargo

LIBRARY := crates/recorder/out/librecorder.a
LIBRARY_FILES := crates.txt $(shell find crates -type d \( -name out -o -name must-fail \) -prune -o -type f -print)
LISTING := crates/listing/out/listing
HOST_FLAGS := -std=c11 -O2 -Wall -Wextra -Wpedantic -Wconversion -Wshadow -Werror
EXAMPLE := examples/two-assertions.txt

.PHONY: demo test quick bench instructions

demo: build/recorder
	@sed -n '/^# number/q; s/^# \{0,1\}//p' $(EXAMPLE)
	@build/recorder demo $(EXAMPLE) --inputs 7,9 --fuel 100

test:
	@tests/gate.sh

quick: build/recorder
	@tests/documents.sh
	@cargo test --release --offline --quiet --manifest-path tests/reference/Cargo.toml
	@tests/examples.sh

bench instructions: $(LIBRARY)
	@$(MAKE) --no-print-directory -C bench $@

# The C host, and the same with the compiler's sanitizers.
build/recorder build/recorder-checked: $(wildcard host/*.c host/*.h) include/recorder.h $(LIBRARY)
	@mkdir -p build
	@gcc $(HOST_FLAGS) -Iinclude -o $@ $(wildcard host/*.c) $(LIBRARY)

build/recorder-checked: HOST_FLAGS += -g -fsanitize=address,undefined -fno-sanitize-recover=all

$(LIBRARY): $(LIBRARY_FILES)
	@host/library.sh
	@touch $@

# The listing program. `rt` builds a program where it runs it.
$(LISTING): $(LIBRARY)
	@mkdir -p build
	@cd crates/listing && { rt run <stdin 2>../../build/listing.log | cmp - stdout; } ||\
	    { tail ../../build/listing.log >&2; exit 1; }
	@touch $@
