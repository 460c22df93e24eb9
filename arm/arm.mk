# make arm:       the library for Cortex-M, build/arm/PROCESSOR/libulavrepit.a, and its header build/arm/ulavrepit.h.
# make arm-run:   examples/handset.c on an emulated board with a Cortex-M3.
# make arm-bench: the instructions that each function takes on each processor, counted in the emulator; those of the quick kernel
# (bench/quick.c) beside them, and those of chains of partitions.
# make arm-where: where the instructions of a find go, by function, on a Cortex-M3, of the library and of the quick kernel.
# make firmware:  examples/firmware on that board: a kernel, two tasks, and a fault of the MPU.
# ARM_ACCESS=aligned with each of them: a library that accesses aligned addresses alone, for a Cortex-M3, M4 or M33 whose firmware
# traps other accesses; it stands in build/arm-aligned. That for a Cortex-M0, which always traps them, is so in any case.
# BOARD=armv8m with make arm, arm-run, arm-bench and native: the library for that board, for a Cortex-M33, in build/armv8m/arm and
# build/armv8m/arm-aligned.
# make native:    the same for the processor at hand, build/native/libulavrepit.a: where x86-64 is only emulated, that is what is
# timed and compared at length (tests/lib.sh, use_native).
# The LLVM module that the back end makes of the proved crates is compiled a second time, by the kit's own clang. docs/ARM.md
# says what of that is proved, what is tested and what is believed.
.PHONY: arm arm-run arm-bench arm-where bench-quick firmware native

ARM_ACCESS ?= any
arm_folder_any := $(lib_folder)/arm
arm_folder_aligned := $(lib_folder)/arm-aligned
arm_build := $(or $(arm_folder_$(ARM_ACCESS)),$(error ARM_ACCESS is '$(ARM_ACCESS)', and neither any nor aligned))
arm_processors_armv7m := $(if $(filter any,$(ARM_ACCESS)),cortex-m0) cortex-m3 cortex-m4 cortex-m33
arm_processors_armv8m := cortex-m33
arm_processors := $(arm_processors_$(BOARD))
arm_bin = $(shell bash -c '. tests/lib.sh && kit_bin')

arm_library_headers := $(lib_headers_$(BOARD):%=$(arm_build)/%)
arm: $(arm_processors:%=$(arm_build)/%/libulavrepit.a) $(arm_library_headers)

arm_run_armv7m := cortex-m3
arm_run_armv8m := cortex-m33
arm-run: $(arm_build)/$(arm_run_$(BOARD))/handset.elf
	@arm/emulate $(arm_run_$(BOARD)) $<

arm-bench: $(arm_processors:%=$(arm_build)/%/rows.elf)
	@arm/bench $(arm_build) $(arm_processors)

arm-where: lib $(arm_build)/cortex-m3/where.elf
	@arm/where $(arm_build)/cortex-m3/where.elf

# What docs/PERFORMANCE.md has under "Against a quick kernel".
bench-quick: lib $(arm_build)/cortex-m3/rows.elf
	@bench/run quick
	@arm/bench $(arm_build) cortex-m3

# ---- the library

# No register of a floating-point unit, no instruction that a processor of that name may lack: firmware may have none, or have
# it switched off. What stands in a folder cortex-m0, and all with ARM_ACCESS=aligned, accesses no address that is not aligned.
arm_target_cortex-m0 := --target=thumbv6m-none-eabi -mcpu=cortex-m0
arm_target_cortex-m3 := --target=thumbv7m-none-eabi -mcpu=cortex-m3
arm_target_cortex-m4 := --target=thumbv7em-none-eabi -mcpu=cortex-m4+nofp
arm_target_cortex-m33 := --target=thumbv8m.main-none-eabi -mcpu=cortex-m33+nofp+nodsp
arm_flags := -mfloat-abi=soft --no-default-config
arm_access_aligned := -mno-unaligned-access
arm_access_any := -munaligned-access
arm_access = $(arm_access_$(if $(filter cortex-m0,$(notdir $(@D))),aligned,$(ARM_ACCESS)))
arm_library_access = $(arm_access)

# As the kit compiles it for x86-64, and with a list of the functions' frames. The kit leaves out some passes that are known to be
# wrong at times.
arm_kit_flags := -O3 -ffunction-sections -fdata-sections $(addprefix -mllvm ,-trap-unreachable -no-trap-after-noreturn \
    -disable-machine-licm -disable-postra-machine-licm -sink-common-insts=false)
arm_library_flags := $(arm_kit_flags) -Werror -Wno-override-module -fstack-usage
# Up to eight bytes whose place in memory is not known are copied one by one, so that no copy calls a function that firmware would have to bring.
arm_copies := -mllvm -max-store-memcpy=8

# board.bc is made with the archive.
arm_module := $(lib_folder)/arm/board.ll
$(arm_module): $(lib_folder)/libulavrepit.a arm/as_text arm/gives_archive arm/known.awk
	@mkdir -p $(@D)
	@arm/as_text $(<D)/board.bc $< $@

# Functions that are not inlined. The marks of runs lie in an array of leave_marks: in the frame of its caller they would lie beside
# all that decides the table, which has ended when they are made; so is the order of the entries in is_sound_beside, for a call with a
# sheet, and so are the areas in gone::settle_named: in the frame of its caller they cost a call 200 bytes of stack more.
# The others but the three that follow are for text: without them it is 3,370 bytes more on a Cortex-M0 and 2,220 on an M3.
# walk_entries and has_lent are for the walk, which has the registers to itself then: find takes 400 to 3,700 less on the densest table.
# store is for its loop over eight words, which is unrolled once more by itself.
arm_apart := runs::walk::leave_marks searching::holding_slot marking::backing::equal_slot loaded::limit::entry_pieces \
    settling::areas::zero_record settling::areas::Areas::is_clear_of settling::came::settle_named settling::gone::settle_named \
    decide::walk::walk_entries decide::entries::has_lent summing::pairs::words_of facesheet::is_sound_beside memory::store
# Beside them on one processor, of the look for zeros and of the load: on a Cortex-M0 the load, which then counts from an address of
# its own; on the others the look at a record, whose loop is unrolled then, with places that differ by constants.
arm_apart_cortex-m0 := memory::load_records
arm_apart_thumb2 := memory::zero_forty
arm_kind = $(if $(filter cortex-m0,$(1)),cortex-m0,thumb2)
arm_apart_of = $(arm_apart) $(arm_apart_$(call arm_kind,$(1)))
keep_apart = sed $(patsubst %,-e '/^define.*@"%"./s/ #0 {/ #0 noinline {/',$(1))
has_apart = [ $$(grep -c '^define.* noinline {$$' $(@D)/board.ll) -eq $(words $(1)) ] || { echo 'a function is to be kept apart that the module has not: $(1)' >&2; false; }

# Loops, FUNCTION=TURNS: so many turns are put together, with 1 none (docs/DECISIONS.md, 81). Unrolled, the loops over records and over
# the areas that make room are text alone, and the look at a record reads beyond the 32 bytes behind an address, where a Cortex-M0 takes half as many instructions again; loads of four words are put together, and where bytes are read, which nothing joins, looks at four words too.
arm_loops_cortex-m0 := memory::zero_forty=1 settling::areas::Areas::shift=1
arm_loops_any := memory::zero_end=1 memory::load_records=4 memory::zero_forty=2 settling::areas::Areas::shift=1
arm_loops_aligned := memory::zero_end=1 memory::zero_forty=5 memory::load_records=2 settling::areas::Areas::shift=1
arm_loops_of = $(arm_loops_$(if $(filter cortex-m0,$(1)),cortex-m0,$(ARM_ACCESS)))
# A word about a loop stands at its jump back; what it says, at the module's end, under a number that nothing else has.
loop_function = $(firstword $(subst =, ,$(1)))
loop_turns = $(lastword $(subst =, ,$(1)))
tell_loops = $(foreach loop,$(1),-e '/^define.*@"$(call loop_function,$(loop))"./,/^}/s/ br label %loop\.[0-9]*$$/&, !llvm.loop !900$(call loop_turns,$(loop))/')
loops_told = $(foreach turns,$(sort $(foreach loop,$(1),$(call loop_turns,$(loop)))),&& printf '!900%s = distinct !{!900%s, !901%s}\n!901%s = !{!"llvm.loop.unroll.count", i32 %s}\n' $(turns) $(turns) $(turns) $(turns) $(turns))
has_loops = $(foreach loop,$(1),grep -q '^define.*@"$(call loop_function,$(loop))".' $(@D)/board.ll &&) true || { echo 'a loop is told of in a function that the module has not: $(1)' >&2; false; }

# The library passes no floating-point number to anybody. The attribute tells linkers: they would refuse it in firmware that
# passes them in registers.
arm_attribute := .eabi_attribute 28, 3
$(arm_build)/%/libulavrepit.a: $(arm_module) arm/arm.mk arm/stack.awk arm/recursion.txt
	@mkdir -p $(@D)
	@{ $(call keep_apart,$(call arm_apart_of,$*)) $(call tell_loops,$(call arm_loops_of,$*)) $< && echo 'module asm "$(arm_attribute)"' $(call loops_told,$(call arm_loops_of,$*)); } >$(@D)/board.ll
	@$(call has_apart,$(call arm_apart_of,$*))
	@$(call has_loops,$(call arm_loops_of,$*))
	@$(arm_bin)/clang $(arm_target_$*) $(arm_flags) $(arm_library_access) $(arm_library_flags) $(arm_copies) -S -x ir $(@D)/board.ll -o $(@D)/board.s
	@$(arm_bin)/clang $(arm_target_$*) $(arm_flags) -c $(@D)/board.s -o $(@D)/board.o
	@awk -f arm/stack.awk arm/recursion.txt $(@D)/board.su $(@D)/board.s >$(@D)/stack.txt
	@rm -f $@
	@$(arm_bin)/llvm-ar rcs $@ $(@D)/board.o

$(arm_library_headers): $(arm_build)/%: include/%
	@mkdir -p $(@D)
	@cp $< $@

native: $(lib_folder)/native/libulavrepit.a $(lib_headers)

# build/aarch64: for that processor, whatever the one at hand; make bench-aarch64 counts its instructions.
native_processor_native = $$(uname -m)
native_processor_aarch64 := aarch64
# Text does not count here, so more is inlined than the compiler would by itself. What is kept apart: the search for the end, whose
# loop would else carry what is made of its answer, and the pieces of an entry, for which the loop over regions has too few registers.
native_inlined := -mllvm -inline-threshold=500
native_apart := memory::zero_end loaded::limit::entry_pieces
$(lib_folder)/native/libulavrepit.a $(lib_folder)/aarch64/libulavrepit.a: $(arm_module) arm/arm.mk
	@mkdir -p $(@D)
	@$(call keep_apart,$(native_apart)) $< >$(@D)/board.ll
	@$(call has_apart,$(native_apart))
	@$(arm_bin)/clang --target=$(native_processor_$(notdir $(@D)))-unknown-linux-gnu --no-default-config $(arm_library_flags) $(native_inlined) -fPIC -c -x ir $(@D)/board.ll -o $(@D)/board.o
	@rm -f $@
	@$(arm_bin)/llvm-ar rcs $@ $(@D)/board.o

# ---- programs for the emulator: build/arm/PROCESSOR/NAME.elf

arm_sources_handset := examples/handset.c
arm_sources_replay := arm/replay.c
arm_sources_rows = arm/rows.c tests/c/tables.c $(arm_build)/$(*D)/quick.o
arm_sources_where = arm/where.c $(arm_build)/$(*D)/quick.o
arm_sources_stack := tests/c/stack.c arm/board/paint.c tests/c/tables.c tests/c/damage.c tests/c/most_runs.c tests/c/steer.c second/kernel.c
arm_sources_mpu := arm/mpu.c
arm_sources_compare := tests/c/compare.c tests/c/damage.c tests/c/most_runs.c tests/c/steer.c second/kernel.c

# The emulated board with a Cortex-M0 has too little memory for most: that library runs on the one with a Cortex-M3, which has
# all its instructions.
arm_c_target = $(arm_target_$(patsubst cortex-m0,cortex-m3,$(*D)))
arm_memory = $(if $(filter cortex-m33,$(*D)),mps2-an505,mps2-an385)
arm_c_flags := -std=c99 -O2 -ffunction-sections -Wall -Wextra -Werror -ffreestanding -fno-builtin \
    -I$(arm_build)/include -I$(arm_build) -Iarm/board -Isecond -Itests/c -Ibench $(if $(filter armv8m,$(BOARD)),-DBOARD=SECOND_V8)

arm_headers := $(patsubst %,$(arm_build)/include/%.h,inttypes stdbool stddef stdint stdio stdlib string)
$(arm_headers): $(arm_build)/include/%.h: arm/board/libc.h
	@mkdir -p $(@D)
	@cp $< $@

# By the same compiler at the same level as the library, for the same processor.
.SECONDARY: $(arm_processors:%=$(arm_build)/%/quick.o)
$(arm_build)/%/quick.o: bench/quick.c bench/quick.h $(arm_build)/ulavrepit.h $(arm_headers) arm/arm.mk
	@mkdir -p $(@D)
	@$(arm_bin)/clang $(arm_target_$*) $(arm_flags) $(arm_library_access) $(arm_c_flags) -O3 -c $< -o $@

# ARM_STACK=bytes: with a stack of another size.
arm_compile = $(arm_bin)/clang $(arm_flags) $(arm_access) $(arm_c_flags) -nostdlib --ld-path=$(arm_bin)/ld.lld -Larm/board \
    -Wl,-e,reset,--gc-sections arm/board/libc.c
arm_link = $(arm_compile) arm/board/start.c
arm_needs := $(arm_library_headers) $(arm_headers) arm/arm.mk $(wildcard arm/board/*)

.SECONDEXPANSION:
$(arm_build)/%.elf: $(arm_build)/$$(*D)/libulavrepit.a $(arm_needs) $$(arm_sources_$$(*F))
	@$(arm_link) $(arm_c_target) -T arm/board/$(arm_memory).ld -Wl,--defsym=stack_bytes=$(or $(ARM_STACK),65536) $(arm_sources_$(*F)) $< -o $@

# The example fits into the 16 KiB of the emulated board that has a Cortex-M0.
$(arm_build)/cortex-m0/microbit.elf: $(arm_build)/cortex-m0/libulavrepit.a $(arm_needs) examples/handset.c
	@$(arm_link) $(arm_target_cortex-m0) -T arm/board/microbit.ld -Wl,--defsym=stack_bytes=$(or $(ARM_STACK),8192) examples/handset.c $< -o $@

# ---- examples/firmware: an image with vectors and memory of its own, of FIRMWARE into FIRMWARE_IMAGE

FIRMWARE := examples/firmware/firmware.c
FIRMWARE_IMAGE := $(arm_build)/cortex-m3/firmware.elf

firmware: $(FIRMWARE_IMAGE)
	@arm/emulate cortex-m3 $<

$(FIRMWARE_IMAGE): $(FIRMWARE) examples/firmware/firmware.ld $(arm_build)/cortex-m3/libulavrepit.a $(arm_needs)
	@$(arm_compile) $(arm_target_cortex-m3) -T examples/firmware/firmware.ld $< $(arm_build)/cortex-m3/libulavrepit.a -o $@

.DELETE_ON_ERROR:
