# Logodwen: the reference node. `make run` does the main job, `make test` is the whole test. Each does its own set-up; `make help` lists all.
SHELL := /bin/sh

# This folder, also for `make -f` from elsewhere and with a space in its name, as one word for the shell.
here := $(shell cd "$$(dirname "$$(echo '$(subst ','\'',$(MAKEFILE_LIST))' | sed 's/^ //')")" && pwd -P)
home := '$(subst ','\'',$(here))'

# What the caller says stays as it is: neither make nor the shell takes it for anything but names.
ifdef IMAGES
override IMAGES := $(value IMAGES)
endif
ifdef PREFIX
override PREFIX := $(value PREFIX)
endif
export IMAGES PREFIX

.PHONY: help run test lib verify reproduce install perf vectors tools clean

# Audits the images that IMAGES= names, or those of examples/, of which some are damaged. Where there is no archive of these sources it is
# proved and built first.
run: tools
	@$(home)/host/fresh
	@$(home)/host/images

help:
	@cat $(home)/host/help

# Everything that can be proved or run and compared. The last line is that of `rt ci`, and stands there only if all passed.
test: tools
	@$(home)/host/gate

# The library for a host in C, target/staticlib/liblogodwen.a, proved and built from nothing, with a record of what it was built from.
lib: tools
	@echo "lib: proving and building from nothing, which takes about half an hour on two cores where nothing is proved here yet" >&2
	@$(home)/host/lib from-nothing

# Whether archive, header and record belong together, and to these sources.
verify: tools
	@$(home)/host/verify

# Whether the archive is the same, bit for bit, if it is proved and built again in another folder.
reproduce: tools
	@$(home)/host/fresh
	@$(home)/host/reproduce

# Archive, header, record, a pkg-config file and the man pages, below PREFIX.
install: tools
	@$(home)/host/install "$$PREFIX"

# Proved functions and the calls at the C border, against plain C in one process.
perf: tools
	@$(home)/host/fresh
	@cd $(home) && { (cd crates/perf && ../../host/lock rt lib) >build/perf.log 2>&1 </dev/null || { cat build/perf.log; exit 1; }; }
	@cd $(home) && cp crates/perf/out/libperf.a target/staticlib/libperf.a
	@cd $(home) && host/build build/perf target/staticlib/libperf.a target/staticlib/liblogodwen.a host/perf/*.c host/model/*.c
	@cd $(home) && host/run build/perf

# The stored vectors, the answers to the bench's scripts and the example of a damaged dump anew, by the model: for a change of what is tested,
# never of what is right.
vectors: tools
	@cd $(home) && python3 model/vectors.py write
	@cd $(home) && python3 model/bench.py write
	@cd $(home) && python3 model/salvage_example.py write

tools:
	@mkdir -p $(home)/build
	@command -v rt >/dev/null 2>&1 || { echo "make: the Rattle toolchain's command 'rt' is not on the PATH" >&2; exit 1; }
	@$(home)/host/need python3 python3

clean:
	cd $(home) && rm -rf build target crates/*/out
