/*
 * The headers of the tree's fs/bcachefs, compiled in user space. They are included whole, and none is copied here. The guards leave out those that need
 * the rest of the kernel; stub/kernel.h and the few lines between the includes stand in for what is named of them.
 */
#ifndef HEADERS_LINUX_H
#define HEADERS_LINUX_H

/* What a compiler warns of in them is the kernel's. */
#pragma GCC system_header

#define _BCACHEFS_ALLOC_TYPES_H
#define _BCACHEFS_BKEY_H
#define _BCACHEFS_DEBUG_H
#define _BCACHEFS_H
#define _BCACHEFS_SUPER_H
#define _BCACHEFS_UTIL_H
#define _BUCKETS_H

#include "stub/kernel.h"
#include "bcachefs_format.h"
#include "bkey_types.h"
#include "buckets_types.h"
#include "sb-members_types.h"
#include "super_types.h"

/* A device, of which the fragmentation index reads the bucket size. */
struct bch_dev {
	struct bch_member_cpu mi;
};

/* Named by inline functions that are not run. */
struct bch_dev *bch2_dev_rcu_noerror(struct bch_fs *c, u64 dev);
bool bucket_valid(const struct bch_dev *ca, u64 bucket);
u64 bch2_dev_buckets_reserved(struct bch_dev *ca, int watermark);
bool bkey_lt(struct bpos l, struct bpos r);
bool bkey_gt(struct bpos l, struct bpos r);
struct bpos bkey_start_pos(const struct bkey *k);

#include "alloc_background.h"
#include "extents.h"

#endif
