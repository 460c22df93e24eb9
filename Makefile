# make test:    the one test command. It proves every crate and runs the host tests; its last line is 'N passed, M failed'.
# make run:     runs the program tally on the session that document 01 prints; SESSION=file on another.
# make check:   why an image, a table that was not made by boot and calls, is not sound: make check IMAGE=file; BOARD=armv8m: on that board.
# make who:     who could have written there: make who IMAGE=dump LINE=line or 0xaddress; without LINE the whole map. NAMES=file has the names.
# make map:     .. and a picture of it: build/map.svg; make picture-test: what a browser makes of two of them.
# make lib:     proves the library and puts it, with its header, into build/; BOARD=armv8m: the one for that board, into build/armv8m/.
# make example: builds and runs examples/handset.c with it; make lines: examples/lines.c; make sheet: examples/sheet.c.
# make bench:   the library against the second program and against a quick kernel in plain C, as quotients of their times, where
#               x86-64 is only emulated also of their instructions; make bench-quick: against the quick kernel alone, also on a Cortex-M3.
# make bench-aarch64: the instructions of the library's module, compiled for aarch64, against the second program's, in an emulator.
# make arm, arm-run, arm-bench: the library for Cortex-M, the example on an emulated board, instructions counted there (arm/arm.mk).
# make soak:    compares the library with the second program for MINUTES=10 from SEED=1 on, memory checked.
.PHONY: test run check who map picture-test lib example lines sheet bench bench-aarch64 soak

test:
	@tests/gate

run:
	@examples/run_session '$(or $(SESSION),crates/tally/stdin)'

check_armv7m := image
check_armv8m := image8
check:
	@examples/check_image $(check_$(BOARD)) '$(or $(IMAGE),crates/$(check_$(BOARD))/stdin)'

# the dump that docs/WHO.md is about, unless another is named
who_words = $(if $(IMAGE),$(if $(NAMES),--names '$(NAMES)') '$(IMAGE)',--names examples/handset.names examples/handset.dump)

who:
	@tools/who $(who_words) $(LINE)

map:
	@mkdir -p build
	@tools/map $(who_words) >build/map.svg.new
	@mv build/map.svg.new build/map.svg
	@echo build/map.svg

picture-test:
	@tests/picture

# BOARD=armv8m: the library for that board, which stands in a folder of its own.
BOARD ?= armv7m
lib_crate_armv7m := board
lib_crate_armv8m := board8
lib_folder_armv7m := build
lib_folder_armv8m := build/armv8m
lib_headers_armv7m := ulavrepit.h
lib_headers_armv8m := ulavrepit.h ulavrepit8.h
lib_crate := $(or $(lib_crate_$(BOARD)),$(error BOARD is '$(BOARD)', and neither armv7m nor armv8m))
lib_folder := $(lib_folder_$(BOARD))
lib_headers := $(lib_headers_$(BOARD):%=$(lib_folder)/%)
lib: $(lib_folder)/libulavrepit.a $(lib_headers)

# Made again when anything in crates/ is newer, but for what rt makes there; folders count too, so that a file taken away is seen. The
# module that it is compiled from is kept beside it, for other processors (arm/arm.mk).
$(lib_folder)/libulavrepit.a: crates crates.txt arm/capture $(shell find crates -mindepth 2 -path 'crates/*/out' -prune -o -print)
	@mkdir -p $(@D)
	@bash -c '. tests/lib.sh && prove_first $(lib_crate) arm/capture $(lib_crate) $@ $(@D)/board.bc'

$(lib_headers): $(lib_folder)/%: include/%
	@mkdir -p $(@D)
	@cp $< $@

# The examples are built with it: build/handset and the like.
run_example = bash -c '. tests/lib.sh && target_cc -std=c99 -O2 -I$(lib_folder) -o $(lib_folder)/$(1) examples/$(1).c $(lib_folder)/libulavrepit.a && run_x86 $(lib_folder)/$(1)'
example: lib
	@$(call run_example,handset)

sheet: lib
	@$(call run_example,sheet)

lines: lib
	@$(call run_example,lines)

bench: lib
	@bench/run

bench-aarch64: build/aarch64/libulavrepit.a build/ulavrepit.h
	@bench/run aarch64

soak: export SEED ?= 1
soak: export MINUTES ?= 10
soak:
	@tests/soak

include arm/arm.mk
