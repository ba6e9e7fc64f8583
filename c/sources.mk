# Builds libwtf8.a and libwtf8.so.0 for x86-64 or 64-bit ARM Linux of the layer in C and of the assembly that the toolchain's
# compiler wrote for the proved code. `make check` runs the examples; `make install` copies the libraries, the headers and
# what pkg-config and CMake find them by below $(DESTDIR)$(PREFIX), the libraries to $(DESTDIR)$(LIBDIR). To cross-compile:
# make CC=aarch64-linux-gnu-gcc AR=aarch64-linux-gnu-ar
CFLAGS ?= -O2
PREFIX ?= /usr/local
LIBDIR ?= $(PREFIX)/lib
PROCESSOR := $(firstword $(subst -, ,$(shell $(CC) -dumpmachine)))
PROVED := $(patsubst %.s,%.o,$(sort $(wildcard $(PROCESSOR)/*.s)))
ifeq ($(PROVED),)
$(error $(CC) compiles for $(PROCESSOR), for which no code is here)
endif
compile = $(CC) $(CPPFLAGS) $(CFLAGS) -std=c11 -fPIC -ffunction-sections -fdata-sections -c wtf8.c
link = $(CC) $(CFLAGS) $(LDFLAGS) -shared -Wl,-soname,libwtf8.so.0 -Wl,-Bsymbolic-functions -Wl,-z,defs -Wl,-z,text \
    -Wl,-z,relro -Wl,-z,now -Wl,--version-script=wtf8.map
ifeq ($(PROCESSOR),x86_64)
# A shadow stack may be on: functions return only to their callers.
compile += -fcf-protection=return
link += -Wl,-z,shstk
endif

all: libwtf8.a libwtf8.so

# A program exports nothing that it took from the archive.
static.o: wtf8.c wtf8.h wtf8_sanitizers.h
	$(compile) -fvisibility=hidden -o $@

shared.o: wtf8.c wtf8.h wtf8_sanitizers.h
	$(compile) -o $@

$(PROVED): %.o: %.s
	$(CC) -c $< -o $@

libwtf8.a: static.o $(PROVED)
	rm -f $@
	$(AR) rcs $@ static.o $(PROVED)

# All symbols are bound when the library is loaded, and the tables of pointers are read-only then.
libwtf8.so.0: shared.o $(PROVED) wtf8.map
	$(link) -o $@ shared.o $(PROVED)

libwtf8.so: libwtf8.so.0
	ln -sf libwtf8.so.0 $@

# $(RUN) runs programs for another processor, as `qemu-aarch64 -L /usr/aarch64-linux-gnu`.
check: all
	set -e; for name in join json; do \
	    $(CC) $(CFLAGS) $(LDFLAGS) -I. examples/$$name.c libwtf8.a -o $$name; \
	    $(RUN) ./$$name | diff examples/$$name.txt -; \
	    $(CC) $(CFLAGS) $(LDFLAGS) -I. examples/$$name.c -L. -lwtf8 -Wl,-rpath,$(CURDIR) -o $$name; \
	    $(RUN) ./$$name | diff examples/$$name.txt -; \
	done

install: all
	mkdir -p $(DESTDIR)$(PREFIX)/include $(DESTDIR)$(LIBDIR)/pkgconfig $(DESTDIR)$(LIBDIR)/cmake/wtf8
	cp wtf8.h wtf8.hpp wtf8_sanitizers.h $(DESTDIR)$(PREFIX)/include/
	cp -P libwtf8.a libwtf8.so libwtf8.so.0 $(DESTDIR)$(LIBDIR)/
	sed 's:^prefix=.*:prefix=$(PREFIX):; s:^libdir=.*:libdir=$(LIBDIR):' wtf8.pc >$(DESTDIR)$(LIBDIR)/pkgconfig/wtf8.pc
	sed 's:^set(wtf8_includedir .*:set(wtf8_includedir "$(PREFIX)/include"):' wtf8-config.cmake >$(DESTDIR)$(LIBDIR)/cmake/wtf8/wtf8-config.cmake
	cp wtf8-config-version.cmake $(DESTDIR)$(LIBDIR)/cmake/wtf8/

clean:
	rm -f libwtf8.a libwtf8.so libwtf8.so.0 join json static.o shared.o $(PROVED)

.PHONY: all check install clean
