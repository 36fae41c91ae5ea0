/* What the rest of the kernel declares and the headers of fs/bcachefs name. Nothing here decides a byte: what is run of it divides, compares types or asserts. */
#ifndef HEADERS_STUB_KERNEL_H
#define HEADERS_STUB_KERNEL_H

#include <string.h>
#include <linux/types.h>
#include <linux/kernel.h>
#include <linux/bitops.h>
#include <linux/err.h>

#define __counted_by(member)
#define U8_MAX UINT8_MAX
#define READ 0
#define BCH_WATERMARK_stripe 0
#define EBUG_ON(cond) BUG_ON(cond)
#define clamp_t(type, val, lo, hi) clamp((type) (val), (type) (lo), (type) (hi))
#define type_is_exact(val, type) __builtin_types_compatible_p(typeof(val), type)
#define type_is(val, type) (type_is_exact(val, type) || type_is_exact(val, const type))

/* Passed on by their pointers only. */
struct bch_fs;
struct bch_io_opts;
struct btree_iter;
struct btree_trans;
struct printbuf;

/* Held in structs that are not compared. */
typedef unsigned blk_mode_t;

struct rcu_head {
	void *next;
};

enum btree_iter_update_trigger_flags {
	BTREE_TRIGGER_none,
};

enum bch_validate_flags {
	BCH_VALIDATE_none,
};

/* The kernel's division. */
static inline u64 div_u64(u64 dividend, u32 divisor)
{
	return dividend / divisor;
}

/* Named by inline functions that are not run. */
void rcu_read_lock(void);
void rcu_read_unlock(void);
void memcpy_u64s_small(void *dst, const void *src, unsigned u64s);
void memmove_u64s_down(void *dst, const void *src, unsigned u64s);
void memmove_u64s_up_small(void *dst, const void *src, unsigned u64s);

#endif
