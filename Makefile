# Proves and builds: `make` the program, `make library` the archive for C, `make kernel` those for kernels, `make bench`
# the benchmarks, `make NAME` a crate and what it stands on; `make pages` has scripts write theirs. crates.txt says what
# stands on what, and tools/prove.py looks what that in build/ was made from.
$(if $(filter output-sync,$(.FEATURES)),,$(error GNU make 4 or later is needed))
llfree:
ifneq ($(filter-out clean pages gate uninstall deb,$(or $(MAKECMDGOALS),llfree)),)
$(if $(shell tools/prove.py look $(or $(MAKECMDGOALS),llfree) || echo no),$(error nothing is built))
include build/crates.mk
MAKEFLAGS += $(if $(filter 0,$(MAKELEVEL)),-j$(slots))
endif
MAKEFLAGS += --no-builtin-rules
library: build/libllfree_c.a
kernel: build/libllfree_kernel.a build/libllfree_linux.a
	@tools/kernel_check.sh build/libllfree_kernel.a
	@tools/kernel_check.sh build/libllfree_linux.a __x86_return_thunk
bench: llfree_bench
examples: library ; $(MAKE) -C examples/c
gate: ; .ci/run
clean: ; rm -rf build .git/proved
pages: ; tools/definitions.py --strict && tools/contracts.py && man/pages.py <include/llfree.h >man/llfree.3 && tools/readmes.py

# What is installed below PREFIX, as FROM:TO. The archive has a heap over malloc; pkg-config and CMake find it.
PREFIX ?= /usr/local
to := $(DESTDIR)$(PREFIX)
version := $(shell cat VERSION)
major := $(firstword $(subst ., ,$(version)))
shared := libllfree.so.$(version)
installed := build/llfree:bin/llfree build/libllfree.a:lib/libllfree.a build/$(shared):lib/$(shared) \
	build/llfree.pc:lib/pkgconfig/llfree.pc $(foreach it,$(wildcard include/*.h include/*.hpp),$(it):$(it)) \
	$(foreach it,llfreeConfig.cmake llfreeConfigVersion.cmake,build/$(it):lib/cmake/llfree/$(it)) \
	man/llfree.1:share/man/man1/llfree.1 man/llfree.3:share/man/man3/llfree.3 \
	completions/_llfree:share/zsh/site-functions/_llfree \
	completions/llfree.bash:share/bash-completion/completions/llfree
build/heap.o: tools/heap.c ; $(CC) -O2 -fPIC -std=c11 -c -o $@ $<
build/%: examples/c/%.in always ; sed -e 's|@version@|$(version)|; s|@major@|$(major)|' $< >$@
build/libllfree.a: build/libllfree_c.a build/heap.o ; cp $< $@ && ar r $@ build/heap.o
build/$(shared): build/libllfree_c.a build/heap.o examples/c/llfree.map
	$(CC) -shared -o $@ -Wl,-soname,libllfree.so.$(major) -Wl,--version-script=examples/c/llfree.map \
		-Wl,-z,defs -Wl,--whole-archive $< -Wl,--no-whole-archive build/heap.o
install: $(filter build/%,$(subst :, ,$(installed)))
	for it in $(installed); do install -D -m 644 "$${it%:*}" "$(to)/$${it#*:}" || exit; done
	chmod 755 '$(to)/bin/llfree' '$(to)/lib/$(shared)'
	for it in '' .$(major); do ln -sf $(shared) '$(to)/lib/libllfree.so'$$it; done
	man/pages.py '$(to)/share/man/man3' <include/llfree.h
uninstall:
	rm -f $(foreach it,$(installed),'$(to)/$(lastword $(subst :, ,$(it)))') '$(to)/share/man/man3'/llfree_*.3 \
		'$(to)/lib/libllfree.so' '$(to)/lib/libllfree.so.$(major)'
	! [ -d '$(to)/lib/cmake/llfree' ] || rmdir --ignore-fail-on-non-empty '$(to)/lib/cmake/llfree'
deb: ; tools/deb.sh
.DELETE_ON_ERROR:
.PHONY: library kernel bench examples gate clean pages install uninstall deb always
