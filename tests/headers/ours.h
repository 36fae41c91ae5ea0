/* The functions of crates/format_c: see crates/format_c/src/lib.rt for what each promises. A slice is its first byte and its length. */
#ifndef HEADERS_OURS_H
#define HEADERS_OURS_H

#include <stddef.h>
#include <stdint.h>

uint64_t format_pointer(uint64_t sector, uint8_t generation);
uint64_t format_crc32(uint64_t stored, uint64_t file, uint64_t ctype, uint64_t kind, uint64_t checksum);
uint64_t format_crc64(uint64_t stored, uint64_t file, uint64_t ctype, uint64_t kind);
size_t format_new_alloc(uint8_t *out, size_t len, uint64_t journal, uint8_t generation, uint32_t dirty, uint64_t clock);
void format_emptied(uint8_t *value, size_t len, uint64_t journal);
void format_discarded(uint8_t *value, size_t len);
size_t format_backpointer(uint8_t *out, size_t len, uint8_t generation, uint32_t stored, uint64_t inode, uint64_t offset, uint32_t snapshot);
void format_with_gen(uint8_t *value, size_t len, uint64_t bucket, uint8_t generation);
uint64_t format_fragmentation(uint32_t dirty, uint64_t sectors);

#endif
