# make headers LINUX=dir: our bit layouts, held to the headers of dir, which is fs/bcachefs of a Linux 6.12 source tree.
HEADERS_DIR := tests/headers
HEADERS_CFLAGS = -std=gnu11 -O1 -Wall -Wextra -iquote "$(LINUX)" -I $(HEADERS_DIR)/stub -I "$(LINUX)/../../tools/include" -idirafter "$(LINUX)/../../include"

.PHONY: headers
headers:             ## LINUX=dir: holds the bit layouts to the headers of dir, fs/bcachefs of a Linux 6.12 source tree.
	@test -f "$(LINUX)/bcachefs_format.h" || { echo "usage: make headers LINUX=dir, where dir is fs/bcachefs of a Linux 6.12 source tree" >&2; exit 2; }
	bash tools/build format_c
	mkdir -p target/headers
	$(CC) $(HEADERS_CFLAGS) -o target/headers/check $(HEADERS_DIR)/check.c target/staticlib/libformat_c.a
	target/headers/check
