# The library for C and the tools judge_file and carry_file.
#   make                      proves the library, writes its archive, builds target/judge_file and target/carry_file
#   make install              puts header, archive, pkg-config file and the tools under PREFIX (below DESTDIR where that is set)
#   make uninstall            takes them away again
# Proving from nothing takes some twenty minutes; what was proved is not proved again.
PREFIX ?= /usr/local
CC = gcc
CFLAGS = -std=c11 -O2 -Wall -Wextra
INSTALL = install

archive = target/staticlib/libfollowup.a
judge_file = target/judge_file
carry_file = target/carry_file
header = host/followup.h
judge_sources = $(wildcard host/judge_file/*.c)
carry_sources = host/carry_file/main.c host/judge_file/sheet.c host/judge_file/words.c host/judge_file/fault.c
version = $(shell awk '$$2 == "FOLLOWUP_VERSION" { print $$3 }' $(header))
to = $(DESTDIR)$(PREFIX)

all: $(archive) $(judge_file) $(carry_file)

# The archive is as new as its proof: rt decides what has to be done.
.PHONY: all install uninstall prove
prove:
	tools/build.sh followup

$(archive): prove

$(judge_file): $(judge_sources) host/judge_file/sheet.h $(header) $(archive)
	$(CC) $(CFLAGS) -Ihost $(judge_sources) $(archive) -o $@

$(carry_file): $(carry_sources) host/judge_file/sheet.h $(header) $(archive)
	$(CC) $(CFLAGS) -Ihost $(carry_sources) $(archive) -o $@

install: all
	$(INSTALL) -d $(to)/include $(to)/lib/pkgconfig $(to)/bin
	$(INSTALL) -m 644 $(header) $(to)/include/followup.h
	$(INSTALL) -m 644 $(archive) $(to)/lib/libfollowup.a
	printf '%s\n' 'prefix=$(PREFIX)' 'libdir=$${prefix}/lib' 'includedir=$${prefix}/include' '' \
	    'Name: followup' 'Description: A proved judge of follow-up sheets' 'Version: $(version)' \
	    'Cflags: -I$${includedir}' 'Libs: -L$${libdir} -lfollowup' >$(to)/lib/pkgconfig/followup.pc
	$(INSTALL) -m 755 $(judge_file) $(to)/bin/judge_file
	$(INSTALL) -m 755 $(carry_file) $(to)/bin/carry_file

uninstall:
	rm -f $(to)/include/followup.h $(to)/lib/libfollowup.a $(to)/lib/pkgconfig/followup.pc $(to)/bin/judge_file $(to)/bin/carry_file
