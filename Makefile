# `make` alone prints what there is.
.PHONY: help library shared read tokens shader-tree install test check-hosts clean always
.DELETE_ON_ERROR:
.DEFAULT_GOAL := help
MAKEFLAGS += --no-print-directory

# The name goes to the shell through the environment, so that any name stands as it is.
override FILE := $(value FILE)
export FILE

version := $(shell sed -n 's/^.define SHADER_READER_VERSION "\(.*\)"/\1/p' include/shader_reader.h)
soname := libshader_reader.so.$(basename $(version))

# The library that is linked and installed, and what must be made before: it is proved anew when a crate has changed.
ifdef SHADER_READER_LIB
library := $(SHADER_READER_LIB)
made := always
else
library := build/libshader_reader.a
made := $(library)
endif

help:
	@cat hosts/check/help

library: $(made)
	@test -r "$(library)" || { echo "$(library) can't be read" >&2; exit 2; }
	@echo "$(library) is there" >&2

# All that rt reads of the crates, and nothing that it writes.
sources := $(shell find crates -name out -prune -o \
	-type f '(' -path '*/src/*' -o -path '*/specs/*' -o -path '*/proofs/*' ')' -print)
build/libshader_reader.a: crates.txt $(sources)
	@command -v rt >/dev/null || \
		{ echo 'rt, the Rattle toolchain, is not found: install it, or set SHADER_READER_LIB' >&2; exit 2; }
	@echo 'proving the crates, which takes some minutes' >&2
	@cd crates/shader_reader_c && rt lib >&2
	@mkdir -p build
	@cp crates/shader_reader_c/out/libshader_reader_c.a $@

shared: build/$(soname)
build/$(soname): $(made)
	@mkdir -p build
	@$(CC) $(LDFLAGS) -shared -Wl,-soname,$(soname) -Wl,-z,text -Wl,-z,defs \
		-Wl,--whole-archive "$(library)" -Wl,--no-whole-archive -o build/libshader_reader.so.$(version)
	@ln -sf libshader_reader.so.$(version) build/libshader_reader.so
	@ln -sf libshader_reader.so.$(version) $@
	@echo 'build/libshader_reader.so is there' >&2

build/read: hosts/c/read.c include/shader_reader.h $(made)
	@mkdir -p build
	@$(CC) -O2 $(CFLAGS) -Iinclude hosts/c/read.c "$(library)" -o $@

# The file is looked at before anything is proved; standard output has the listing alone.
read tokens:
	@test -n "$$FILE" || { echo 'which file? make $@ FILE=examples/layer_mask.frag' >&2; exit 2; }
	@test "$$FILE" = - || { test -r "$$FILE" && ! test -d "$$FILE"; } || \
		{ printf "%s can't be read\n" "$$FILE" >&2; exit 2; }
	@$(MAKE) FILE= build/read >&2
	@build/read $(if $(filter read,$@),listing,tokens) "$$FILE"

shader-tree: $(made)
	@SHADER_READER_LIB="$$(realpath "$(library)")" cargo build --quiet --offline --release \
		--manifest-path hosts/shader-tree/Cargo.toml --target-dir build/cargo
	@cp build/cargo/release/shader-tree build/shader-tree
	@echo 'build/shader-tree is there' >&2

install: library
	@hosts/c/package/install.sh "$(library)"

test:
	.ci/run

check-hosts: library
	@hosts/check/run "$(library)"

clean:
	rm -rf build
