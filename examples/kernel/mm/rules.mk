# Linux 6.1 whose page allocator is the library (docs/KERNEL.md): `make um` runs it as a program (User Mode Linux), and
# `make mm` in QEMU; `make um-trials` and `make mm-trials` show what has to fail in boots of its own. `make um-compaction`
# is `make um` with compaction, and `make mm-huge` is `make mm` with huge pages of processes. `make foreign` runs
# programs of others in QEMU, and has Linux as a program compile Linux. RUN names parts of mm/init or mm/foreign.sh,
# WORDS are more of the kernel's command line. `make threads` tries in user space what reads the library's words.
# It needs Debian's packages linux-source-6.1, xz-utils, flex, bison, bc, busybox-static or busybox, and cpio; in QEMU
# also libelf-dev; programs of others stress-ng, libnuma-dev and libcap-dev.
sources := /usr/src/linux-source-6.1.tar.xz
# may lie outside of the checkout: about 50,000 files
linux ?= $(abspath $(out))/mm
jobs ?= $(shell nproc)

unneeded := *.rst *.dts *.dtsi */tools/testing/* */tools/perf/* */sound/*.[ch] */arch/[^ux]*/*.[chS] \
	$(patsubst %,*/drivers/%/*.[ch],gpu infiniband media net scsi staging usb)
public := llfree.h llfree_blocks.h llfree_heap.h
llfree_files := $(wildcard mm/llfree/*) linux/include $(addprefix $(root)/include/,$(public)) $(library)_kernel.a \
	$(library)_c.a
comma := ,
# a compilation gives the same bytes each time
always_same := $(patsubst %,KBUILD_BUILD_%,TIMESTAMP=@0 VERSION=1 USER=llfree HOST=llfree)
kbuild = unset MAKEFLAGS MFLAGS MAKELEVEL; $(MAKE) -s -C $(linux)/source $(always_same)

$(linux)/source/unpacked: $(sources) mm/page_alloc.patch mm/compaction.patch mm/um_xstate.patch
	rm -rf $(@D)
	mkdir -p $(@D)
	tar xf $(sources) -C $(@D) --strip-components=1 $(patsubst %,--exclude='%',$(unneeded))
	cat $(filter %.patch,$^) | patch -s -p1 -d $(@D)
	touch $@

# what did not change keeps its time, and is not compiled again
$(linux)/source/with-llfree: $(linux)/source/unpacked $(llfree_files) $(wildcard linux/include/*)
	mkdir -p $(@D)/mm/llfree
	cp -ru $(llfree_files) $(@D)/mm/llfree
	touch $@

# $(call compile,MACHINE,WORDS,GOALS,IMAGE[,OTHER]): by the configuration of that machine, over that of the other one.
# What it does not take over is printed, and an error. Beside the image is one with the ordinary archive.
define compile
$(linux)/$(1)/image: $(linux)/source/with-llfree $(patsubst %,mm/%.config,common $(5) $(1))
	mkdir -p $$(@D)
	cat $$(filter %.config,$$^) >$$(@D)/wanted
	$$(kbuild) O=$$(@D) $(2) KCONFIG_ALLCONFIG=$$(@D)/wanted allnoconfig
	! grep -vxFf $$(@D)/.config $$(@D)/wanted | grep CONFIG_
	$$(kbuild) O=$$(@D) $(2) -j$(jobs) $(3)
	cp $$(@D)/$(4) $$@

$(linux)/$(1)/ordinary: $(linux)/$(1)/image
	$$(kbuild) O=$$(@D) $(2) -j$(jobs) archive=c $(firstword $(3))
	cp $$(@D)/$(4) $$@
endef
$(eval $(call compile,um,ARCH=um SUBARCH=x86_64,linux,linux))
$(eval $(call compile,um-compaction,ARCH=um SUBARCH=x86_64,linux,linux,um))
$(eval $(call compile,mm,ARCH=x86_64,bzImage modules,arch/x86/boot/bzImage))
$(eval $(call compile,mm-huge,ARCH=x86_64,bzImage modules,arch/x86/boot/bzImage,mm))

$(linux)/cut $(linux)/huge: $(linux)/%: mm/%.c mm/stamps.h
	mkdir -p $(@D)
	$(CC) -O2 -std=c11 -Wall -Wextra -static -o $@ $<

$(linux)/um/initramfs: mm/init mm/compact $(linux)/cut
	mkdir -p $(@D)
	$(call pack,$^)

# behind those of mm those of programs of others
$(linux)/foreign/files: mm/foreign_files.sh mm/foreign.sh mm/selftests $(linux)/um/image $(linux)/mm/image
	mkdir -p $(@D)
	mm/foreign_files.sh $(sources) $(linux) '$(always_same)' $@

$(linux)/foreign/initramfs: $(linux)/mm/initramfs $(linux)/foreign/files
	cat $^ >$@

$(linux)/mm/initramfs $(linux)/mm-huge/initramfs: %/initramfs: mm/init $(linux)/cut $(linux)/huge %/image
	$(call pack,$(filter-out %/image,$^) $(addprefix $(@D)/,mm/zsmalloc.ko drivers/block/zram/zram.ko))

# the test of references runs at every boot that does not forbid it, and takes minutes with poisoned pages
without_references := initcall_blacklist=m_in
checks := llfree=bits page_poison=1 $(without_references)
parts := shells,largest,archives,fill,oom,handlers,drain,orders,marks,order,twice,frame,used
um_words := con0=null,fd:1 con=null quiet
um_at = $(seconds) $(linux)/$(1).log $(linux)/$(1)/image mem=512M $(um_words) initrd=$(linux)/um/initramfs

um: $(linux)/um/image $(linux)/um/initramfs
	$(if $(RUN)$(WORDS),,mm/boot.sh $(call um_at,um) run=references llfree=bits,alone)
	mm/boot.sh $(call um_at,um) run=$(or $(RUN),$(parts)) $(or $(WORDS),$(checks))

um_compaction_parts := compact,$(parts)
# the first warning ends it
looking := panic_on_warn=1 ignore_loglevel llfree=looks $(without_references)
not_held := -l 'llfree: (give|split) of frame .*: not held'

um-compaction: $(linux)/um-compaction/image $(linux)/um/initramfs
	mm/boot.sh $(call um_at,$@) run=$(or $(RUN),$(um_compaction_parts)) $(or $(WORDS),$(checks))
	$(if $(RUN)$(WORDS),,@echo '--- compaction uses free frames, and does not take them')
	$(if $(RUN)$(WORDS),,mm/boot.sh $(not_held) $(call um_at,$@) $(looking) run=compact)

um-trials: $(linux)/um/image $(linux)/um/initramfs
	@echo '--- an opening finds too little memory'
	mm/boot.sh -l 'llfree: zone .* is not opened: no memory' $(call um_at,um) earlyprintk llfree=small

# without ACPI Linux finds one CPU for each socket
mm mm-trials mm-huge: cpus = $(SMP),sockets=$(SMP),cores=1
mm_words := console=ttyS0 quiet panic=-1 no_timer_check
mm_parts := huge,cpus,swap,$(parts)
# 6 GiB are two zones, and here three nodes, one of which has both
of_nodes := numa=fake=3 run=shells,huge,cpus,orders,marks,zones llfree=bits $(without_references)
# $(call in_qemu,MEMORY,IMAGE[,FILES]), and the words behind it
in_qemu = $(seconds) $(linux)/$(or $(3),mm).log $(qemu) -m $(1) -initrd $(linux)/$(or $(3),mm)/initramfs \
	-kernel $(linux)/$(2) -append

mm: $(linux)/mm/image $(linux)/mm/initramfs
	$(if $(RUN)$(WORDS),,mm/boot.sh $(call in_qemu,6G,mm/image) '$(mm_words) $(of_nodes)')
	mm/boot.sh $(call in_qemu,1G,mm/image) '$(mm_words) run=$(or $(RUN),$(mm_parts)) $(or $(WORDS),$(checks))'

mm-trials: $(linux)/mm/image $(linux)/mm/ordinary $(linux)/mm/initramfs
	@echo '--- the ordinary archive has instructions that Linux has not allowed yet'
	mm/boot.sh -l 'invalid opcode' $(call in_qemu,1G,mm/ordinary) '$(mm_words) earlyprintk=ttyS0'
	@echo '--- an opening finds too little memory'
	mm/boot.sh -l 'llfree: zone .* is not opened: no memory' $(call in_qemu,1G,mm/image) \
		'$(mm_words) earlyprintk=ttyS0 llfree=small'

mm_huge_parts := cut,processes,$(mm_parts)
huge_at = $(call in_qemu,1G,mm-huge/image,mm-huge)

# what a process has where memory is cut up, by the library, without its third cores, and by Linux' own allocator
mm-huge: $(linux)/mm-huge/image $(linux)/mm-huge/initramfs
	mm/boot.sh $(huge_at) '$(mm_words) run=$(or $(RUN),$(mm_huge_parts)) $(or $(WORDS),$(checks))'
	$(if $(RUN)$(WORDS),,mm/boot.sh $(huge_at) '$(mm_words) run=cut $(checks) llfree=mixed')
	$(if $(RUN)$(WORDS),,mm/boot.sh $(huge_at) '$(mm_words) run=cut $(checks) llfree=off')
	$(if $(RUN)$(WORDS),,@echo '--- compaction uses free frames, and does not take them')
	$(if $(RUN)$(WORDS),,mm/boot.sh $(not_held) $(huge_at) '$(mm_words) $(looking) run=cut')

# an emulator takes its time for what others wrote, and hours for a compilation
foreign: override seconds := 10800
foreign: cpus = $(SMP),sockets=$(SMP),cores=1
foreign_parts := references,selftests,vmalloc,stress
foreign_words = numa=fake=2 secretmem.enable=y run=$(or $(RUN),$(foreign_parts)) llfree=bits page_poison=1 $(WORDS)

foreign: $(linux)/mm/image $(linux)/foreign/initramfs
	mm/boot.sh $(call in_qemu,3G,mm/image,foreign) '$(mm_words) $(foreign_words)'
	$(if $(RUN)$(WORDS),,mm/boot.sh $(seconds) $(linux)/compile.log $(linux)/um/image mem=3G $(um_words) \
		initrd=$(linux)/foreign/initramfs run=compile $(checks))

$(out)/threads: mm/threads.c $(addprefix $(root)/include/,$(public)) $(library)_c.a
	mkdir -p $(out)
	$(CC) -O2 -std=c11 -Wall -Wextra -D_POSIX_C_SOURCE=200809L -pthread -I$(root)/include -o $@ $< $(library)_c.a

# a child that is cut off; one part, and three the last of which is small
threads: $(out)/threads
	$< 130900 50
	$< 2097152 3
	$< 4194604 5

.PHONY: um mm um-compaction mm-huge um-trials mm-trials foreign threads
