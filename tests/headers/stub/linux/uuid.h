/* The 16 bytes of a UUID: bcachefs_format.h names the type in the superblock, which is not compared here. */
#ifndef HEADERS_STUB_UUID_H
#define HEADERS_STUB_UUID_H

#include <linux/types.h>

typedef struct {
	__u8 b[16];
} __uuid_t;

#endif
