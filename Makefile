# make help lists the targets.
.PHONY: help run example explain night canonical capture report lib lib-small lib-thumb install dist test test-firmware test-report \
	test-secrets test-faults compare wide bench fuzz test-fuzz peers

MESSAGES ?= messages
PREFIX ?= /usr/local
export MESSAGES FILE OUT DECODE_AS REFUSED DESTDIR PREFIX TARGET

help:
	@echo 'make run            the depot bench: every message in messages/ through the proved program and the second one;'
	@echo '                    MESSAGES=folder for another folder. The status is 0 where all lines are the same; with REFUSED=fail'
	@echo '                    only where no message is refused either'
	@echo 'make example        a sign-in with messages that were recorded, and the lines of its three messages: needs no server'
	@echo 'make explain        why one message is refused, check by check (NL_AUTH: its line) and in words: FILE=message, in any'
	@echo '                    form that messages/README.md lists'
	@echo 'make night          the messages of a night in one call, by the proved library and the second program: FILE=buffer, with'
	@echo '                    its index beside it (messages/README.md)'
	@echo 'make canonical      one AUTHENTICATE tidied, for comparing it with another: FILE=message, raw, in hex or in base64, to'
	@echo '                    OUT=file, which only you may read, since it holds secrets'
	@echo 'make capture        the messages of a capture, for make run MESSAGES=folder: FILE=x.pcapng, to a new folder OUT=folder,'
	@echo '                    which only you may read; needs tshark. A server on a port of another: DECODE_AS=tcp.port==8080,http'
	@echo 'make report         what make run tells of up to 2,000 messages, as a page to look at in a browser: MESSAGES=folder, to'
	@echo '                    OUT=page.html, which only you may read; secrets are masked on it, and all fields of a refused message'
	@echo 'make lib            the library for C and Rust: target/staticlib/libdialtable.a, whose header is include/dialtable.h'
	@echo 'make lib-small      the same with less code: target/small/libdialtable.a'
	@echo 'make lib-thumb      the same for a small box: target/TARGET/libdialtable.a; TARGET=thumbv7m-none-eabi is understood,'
	@echo '                    thumbv6m-none-eabi and riscv32-unknown-elf are the others that were tried'
	@echo 'make install        the header, the library and a file for pkg-config, under PREFIX=/usr/local, with DESTDIR= before it;'
	@echo '                    with TARGET=small or a target as above that library, in lib/TARGET'
	@echo 'make dist           one archive of header, libraries, example and table of sizes: target/dist/dialtable-VERSION.tar.gz'
	@echo 'make test           every proof and every test; the last line is "N passed, 0 failed"'
	@echo 'make test-faults    a full disk, a read that fails, a killed child, a missing program, no memory: in every tool that writes a'
	@echo '                    file or prints a verdict. make test has all of it but what takes long'
	@echo 'make test-firmware  every call on an emulated Cortex-M3, Cortex-M0 and riscv32 and on this machine, with the same answers;'
	@echo '                    needs qemu-system-arm and gcc-arm-none-eabi, and for riscv32 qemu-system-misc, gcc-riscv64-unknown-elf and'
	@echo '                    picolibc-riscv64-unknown-elf: where one of these is missing, riscv32 is left out with a line'
	@echo 'make test-report    the page of messages/ looked at in Chromium, light and dark, narrow and wide; needs chromium'
	@echo 'make test-secrets   no conditional jump and no address of the compiled library depends on a secret, under valgrind, which it'
	@echo '                    needs; SEED= for other drawn messages, N=20000 for how many'
	@echo 'make compare        the part of make test that holds the three programs against the second reader, on messages from a'
	@echo '                    seed; SEED=number for other messages, N=number for how many are drawn after those at the boundaries'
	@echo 'make wide           the part of it that holds every call of the library against the second reader, on every core; SEED= and N='
	@echo '                    too, or CALLS=number for how many calls are held at least'
	@echo 'make fuzz           the library and the second reader fuzzed together for TIME=seconds, 60 unless you say, with JOBS=number of'
	@echo '                    processes, one for each core unless you say; it stops at the first difference. Needs libclang-rt-14-dev'
	@echo 'make test-fuzz      faults planted in the library, each of which make fuzz must find: some minutes'
	@echo 'make peers          what tshark, impacket and Samba read in messages/, at the boundaries and in N= messages drawn from SEED=,'
	@echo '                    held against the library; MESSAGES=folder too; needs tshark, python3-impacket, python3-samba and'
	@echo '                    samba-testsuite'
	@echo 'make bench          how fast the library is beside the second reader, its instructions, its size and its stack'
	@echo 'make sign-in        a box signs in to Samba, gss-ntlmssp, Apache and a domain controller, sound and with faults, and a file'
	@echo '                    goes to a share and back; needs root and Debian packages: it names those that are missing, and leaves their'
	@echo '                    servers out'

run:
	@exec tools/depot run "$$MESSAGES"

example:
	@tools/example

explain:
	@exec tools/depot explain "$$FILE"

night:
	@exec tools/depot night "$$FILE"

canonical:
	@exec tools/depot canonical "$$FILE" "$$OUT"

capture:
	@tools/depot capture "$$FILE" "$$OUT"

report:
	@exec tools/depot report "$$MESSAGES" "$$OUT"

lib:
	@tools/build-lib
	@echo 'target/staticlib/libdialtable.a is built; its header is include/dialtable.h. To link a C program with it:'
	@echo '    gcc -Iinclude program.c target/staticlib/libdialtable.a -o program'

lib-small:
	@tools/build-for small
	@echo 'target/small/libdialtable.a is built; its header is include/dialtable.h. To link only what a C program calls:'
	@echo '    gcc -Iinclude program.c target/small/libdialtable.a -Wl,--gc-sections -o program'

lib-thumb:
	@target=$${TARGET:-thumbv7m-none-eabi} && tools/build-for "$$target" && \
		echo "target/$$target/libdialtable.a is built; its header is include/dialtable.h"

install:
	@tools/install "$$PREFIX" "$$TARGET"

dist:
	@exec tools/dist

compare:
	@exec tools/compare programs

wide:
	@exec tools/compare library

fuzz:
	@exec tools/fuzz

test-fuzz:
	@exec tools/test-fuzz

peers:
	@exec tools/peers

bench:
	@exec tools/bench

test:
	@exec tools/gate

test-faults:
	@exec tools/test-faults

test-firmware:
	@tools/test-firmware

test-report:
	@tools/test-report

test-secrets:
	@exec tools/test-secrets

.PHONY: sign-in
sign-in:
	@tools/sign-in
