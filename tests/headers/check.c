/* Our bit layouts and packed values, held to the Linux headers: README.md says what is compared. */
#include <stdio.h>
#include "linux.h"
#include "ours.h"

enum {
	VALUES = 300, /* how many of each function */
	LONGEST = 300, /* bytes of the longest value */
	SHOWN = 20, /* how many failures are told one by one */
};

static unsigned passed, failed;

/* One number: ours, and the header's. */
static void same(const char *what, __u64 ours, __u64 theirs)
{
	if (ours == theirs) {
		passed++;
		return;
	}
	if (failed++ < SHOWN)
		printf("  %s: ours %llx, the header's %llx\n", what, (unsigned long long) ours, (unsigned long long) theirs);
}

/* One value of one byte or more, of which the first byte that differs is told. */
static void same_bytes(const char *what, const void *ours, const void *theirs, size_t n)
{
	const __u8 *a = ours, *b = theirs;
	size_t i = 0;

	while (i + 1 < n && a[i] == b[i])
		i++;
	same(what, a[i], b[i]);
}

/* A member's place and size in its struct. */
#define MEMBER(type, member, offset, size)						\
do {											\
	same(#type " " #member ", offset", offset, offsetof(struct type, member));	\
	same(#type " " #member ", size", size, sizeof(((struct type *) 0)->member));	\
} while (0)

/* A struct's size, and a number of the header's. */
#define SIZE(type, size) same(#type ", size", size, sizeof(struct type))
#define NUMBER(name, number) same(#name, number, name)

/* So many ones. */
static __u64 ones(unsigned width)
{
	return width < 64 ? (1ULL << width) - 1 : ~0ULL;
}

/* The words of a struct in which one bit field is all ones. */
static void field(const char *what, const __u64 *word, unsigned first, unsigned width)
{
	same(what, ones(width) << first % 64, word[first / 64]);
	same(what, 0, word[1 - first / 64]);
}

/* A bit field's bits, from the first bit of the struct's first word on. */
#define BITS(type, member, first, width)			\
do {								\
	union {							\
		struct type s;					\
		__u64 word[2];					\
	} u = { .word = { 0, 0 } };				\
	__u64 all = ~0ULL;					\
								\
	u.s.member = all;					\
	field(#type " " #member, u.word, first, width);		\
} while (0)

/* A mask of alloc_v4's flags: its place, its width, and the bits that its setter sets. */
#define FLAG(name, offset, width)								\
do {												\
	struct bch_alloc_v4 a = { .flags = 0 };							\
												\
	SET_##name(&a, ~0ULL);									\
	same(#name ", offset", offset, name##_OFFSET);						\
	same(#name ", width", width, name##_BITS);						\
	same(#name ", bits", ones(width) << offset, a.flags);					\
} while (0)

/* The alloc value; byte 48 has 6.12's name. Its age is gen less oldest_gen. */
static void alloc_v4(void)
{
	struct bch_alloc_v4 old = { .gen = 1, .oldest_gen = 2 };

	MEMBER(bch_alloc_v4, journal_seq, 0, 8);
	MEMBER(bch_alloc_v4, flags, 8, 4);
	MEMBER(bch_alloc_v4, gen, 12, 1);
	MEMBER(bch_alloc_v4, oldest_gen, 13, 1);
	MEMBER(bch_alloc_v4, data_type, 14, 1);
	MEMBER(bch_alloc_v4, stripe_redundancy, 15, 1);
	MEMBER(bch_alloc_v4, dirty_sectors, 16, 4);
	MEMBER(bch_alloc_v4, cached_sectors, 20, 4);
	MEMBER(bch_alloc_v4, io_time[0], 24, 8);
	MEMBER(bch_alloc_v4, io_time[1], 32, 8);
	MEMBER(bch_alloc_v4, stripe, 40, 4);
	MEMBER(bch_alloc_v4, nr_external_backpointers, 44, 4);
	MEMBER(bch_alloc_v4, _fragmentation_lru, 48, 8);
	MEMBER(bch_alloc_v4, stripe_sectors, 56, 4);
	MEMBER(bch_alloc_v4, pad, 60, 4);
	SIZE(bch_alloc_v4, 64);
	same("age, in 8 bits", 255, alloc_gc_gen(old));
}

/* The masks of its flags, and what they read in the flags of a new value. */
static void alloc_v4_flags(void)
{
	struct bch_alloc_v4 a = { .flags = 0x23 };

	FLAG(BCH_ALLOC_V4_NEED_DISCARD, 0, 1);
	FLAG(BCH_ALLOC_V4_NEED_INC_GEN, 1, 1);
	FLAG(BCH_ALLOC_V4_BACKPOINTERS_START, 2, 6);
	FLAG(BCH_ALLOC_V4_NR_BACKPOINTERS, 8, 6);
	same("NEED_DISCARD of 0x23", 1, BCH_ALLOC_V4_NEED_DISCARD(&a));
	same("NEED_INC_GEN of 0x23", 1, BCH_ALLOC_V4_NEED_INC_GEN(&a));
	same("BACKPOINTERS_START of 0x23", 8, BCH_ALLOC_V4_BACKPOINTERS_START(&a));
	same("NR_BACKPOINTERS of 0x23", 0, BCH_ALLOC_V4_NR_BACKPOINTERS(&a));
	NUMBER(BCH_ALLOC_V4_U64s, 8);
}

/* The pointer. */
static void extent_ptr(void)
{
	BITS(bch_extent_ptr, type, 0, 1);
	BITS(bch_extent_ptr, cached, 1, 1);
	BITS(bch_extent_ptr, unused, 2, 1);
	BITS(bch_extent_ptr, unwritten, 3, 1);
	BITS(bch_extent_ptr, offset, 4, 44);
	BITS(bch_extent_ptr, dev, 48, 8);
	BITS(bch_extent_ptr, gen, 56, 8);
	SIZE(bch_extent_ptr, 8);
}

/* The crc32 entry. */
static void extent_crc32(void)
{
	BITS(bch_extent_crc32, type, 0, 2);
	BITS(bch_extent_crc32, _compressed_size, 2, 7);
	BITS(bch_extent_crc32, _uncompressed_size, 9, 7);
	BITS(bch_extent_crc32, offset, 16, 7);
	BITS(bch_extent_crc32, _unused, 23, 1);
	BITS(bch_extent_crc32, csum_type, 24, 4);
	BITS(bch_extent_crc32, compression_type, 28, 4);
	BITS(bch_extent_crc32, csum, 32, 32);
	SIZE(bch_extent_crc32, 8);
	NUMBER(CRC32_SIZE_MAX, 128);
}

/* The crc64 entry. */
static void extent_crc64(void)
{
	BITS(bch_extent_crc64, type, 0, 3);
	BITS(bch_extent_crc64, _compressed_size, 3, 9);
	BITS(bch_extent_crc64, _uncompressed_size, 12, 9);
	BITS(bch_extent_crc64, offset, 21, 9);
	BITS(bch_extent_crc64, nonce, 30, 10);
	BITS(bch_extent_crc64, csum_type, 40, 4);
	BITS(bch_extent_crc64, compression_type, 44, 4);
	BITS(bch_extent_crc64, csum_hi, 48, 16);
	BITS(bch_extent_crc64, csum_lo, 64, 64);
	SIZE(bch_extent_crc64, 16);
}

/* A key's position. */
static void bpos(void)
{
	MEMBER(bpos, snapshot, 0, 4);
	MEMBER(bpos, offset, 4, 8);
	MEMBER(bpos, inode, 12, 8);
	SIZE(bpos, 20);
}

/* The backpointer, with 6.12's 40-bit bucket_offset. */
static void backpointer(void)
{
	MEMBER(bch_backpointer, btree_id, 0, 1);
	MEMBER(bch_backpointer, level, 1, 1);
	MEMBER(bch_backpointer, data_type, 2, 1);
	BITS(bch_backpointer, bucket_offset, 24, 40);
	MEMBER(bch_backpointer, bucket_len, 8, 4);
	MEMBER(bch_backpointer, pos, 12, 20);
	SIZE(bch_backpointer, 32);
}

/* The generation record. */
static void bucket_gens(void)
{
	MEMBER(bch_bucket_gens, gens, 0, 256);
	SIZE(bch_bucket_gens, 256);
	NUMBER(KEY_TYPE_BUCKET_GENS_NR, 256);
	NUMBER(KEY_TYPE_BUCKET_GENS_BITS, 8);
}

/* What numbers stand for. */
static void numbers(void)
{
	NUMBER(BCH_EXTENT_ENTRY_ptr, 0);
	NUMBER(BCH_EXTENT_ENTRY_crc32, 1);
	NUMBER(BCH_EXTENT_ENTRY_crc64, 2);
	NUMBER(BCH_DATA_free, 0);
	NUMBER(BCH_DATA_user, 4);
	NUMBER(BCH_DATA_need_discard, 9);
	NUMBER(BCH_CSUM_OPT_none, 0);
	NUMBER(BCH_CSUM_OPT_crc32c, 1);
	NUMBER(BCH_CSUM_OPT_crc64, 2);
	NUMBER(BCH_CSUM_OPT_xxhash, 3);
	NUMBER(BCH_CSUM_none, 0);
	NUMBER(BCH_CSUM_crc32c, 5);
	NUMBER(BCH_CSUM_crc64, 6);
	NUMBER(BCH_CSUM_xxhash, 7);
	NUMBER(BTREE_ID_extents, 0);
}

/* The next number of a xorshift; one in eight is an end of its range. */
static __u64 value(void)
{
	static __u64 x = 0x9e3779b97f4a7c15;

	x ^= x << 13;
	x ^= x >> 7;
	x ^= x << 17;
	return x >> 61 ? x : 0 - (x & 1);
}

/* Bytes of such numbers. */
static void values(__u8 *bytes, size_t n)
{
	while (n--)
		bytes[n] = value();
}

/* A number of sectors, as the functions of ours bring it into range. */
static __u64 sectors_of(__u64 x)
{
	return x % 128 + 1;
}

/* A type of checksum or of compression, likewise. */
static __u64 type_of(__u64 x)
{
	return x % 16;
}

/* Entries of an extent and the words that they are. */
union words {
	__u64 word[2];
	union bch_extent_entry entry;
	union bch_extent_crc crc;
	struct bch_extent_ptr ptr;
};

/* Pointers: the word, and the type that the header reads in it. */
static void pointer_values(void)
{
	for (unsigned i = 0; i < VALUES; i++) {
		__u64 sector = value();
		__u8 gen = value();
		union words ours = { .word = { format_pointer(sector, gen), 0 } };
		union words theirs = { .word = { 0, 0 } };

		theirs.ptr.type = 1 << BCH_EXTENT_ENTRY_ptr;
		theirs.ptr.offset = sector;
		theirs.ptr.gen = gen;
		same("pointer", ours.word[0], theirs.word[0]);
		same("pointer, type", extent_entry_type(&ours.entry), BCH_EXTENT_ENTRY_ptr);
	}
}

/* What a checksum entry is made of. */
struct crc {
	__u64 stored, file, ctype, kind, checksum;
};

/* The next of these. */
static struct crc crc_value(void)
{
	struct crc c;

	c.stored = value();
	c.file = value();
	c.ctype = value();
	c.kind = value();
	c.checksum = value();
	return c;
}

/* The header's own reading of an entry of ours. */
static void unpacked(const union words *ours, const struct crc *c, __u64 checksum)
{
	struct bkey k = { .size = 1 };
	struct bch_extent_crc_unpacked u = bch2_extent_crc_unpack(&k, &ours->crc);

	same("compressed_size", sectors_of(c->stored), u.compressed_size);
	same("uncompressed_size", sectors_of(c->file), u.uncompressed_size);
	same("csum_type", type_of(c->ctype), u.csum_type);
	same("compression_type", type_of(c->kind), u.compression_type);
	same("offset", 0, u.offset);
	same("nonce", 0, u.nonce);
	same("csum.lo", checksum, u.csum.lo);
	same("csum.hi", 0, u.csum.hi);
}

/* crc32 entries: the word, and what the header reads in it. */
static void crc32_values(void)
{
	for (unsigned i = 0; i < VALUES; i++) {
		struct crc c = crc_value();
		union words ours = { .word = { format_crc32(c.stored, c.file, c.ctype, c.kind, c.checksum), 0 } };
		union words theirs = { .word = { 0, 0 } };

		theirs.crc.crc32.type = 1 << BCH_EXTENT_ENTRY_crc32;
		theirs.crc.crc32._compressed_size = sectors_of(c.stored) - 1;
		theirs.crc.crc32._uncompressed_size = sectors_of(c.file) - 1;
		theirs.crc.crc32.csum_type = type_of(c.ctype);
		theirs.crc.crc32.compression_type = type_of(c.kind);
		theirs.crc.crc32.csum = c.checksum;
		same("crc32", ours.word[0], theirs.word[0]);
		same("crc32, type", extent_entry_type(&ours.entry), BCH_EXTENT_ENTRY_crc32);
		unpacked(&ours, &c, (__u32) c.checksum);
	}
}

/* crc64 entries: both words, and what the header reads in them. */
static void crc64_values(void)
{
	for (unsigned i = 0; i < VALUES; i++) {
		struct crc c = crc_value();
		union words ours = { .word = { format_crc64(c.stored, c.file, c.ctype, c.kind), c.checksum } };
		union words theirs = { .word = { 0, 0 } };

		theirs.crc.crc64.type = 1 << BCH_EXTENT_ENTRY_crc64;
		theirs.crc.crc64._compressed_size = sectors_of(c.stored) - 1;
		theirs.crc.crc64._uncompressed_size = sectors_of(c.file) - 1;
		theirs.crc.crc64.csum_type = type_of(c.ctype);
		theirs.crc.crc64.compression_type = type_of(c.kind);
		theirs.crc.crc64.csum_lo = c.checksum;
		same("crc64, first word", ours.word[0], theirs.word[0]);
		same("crc64, second word", ours.word[1], theirs.word[1]);
		same("crc64, type", extent_entry_type(&ours.entry), BCH_EXTENT_ENTRY_crc64);
		unpacked(&ours, &c, c.checksum);
	}
}

/* An alloc value and its bytes. */
union alloc {
	struct bch_alloc_v4 a;
	__u8 bytes[sizeof(struct bch_alloc_v4)];
};

/* A bucket that data is placed in. */
static struct bch_alloc_v4 new_alloc(__u64 journal, __u8 gen, __u32 dirty, __u64 clock)
{
	struct bch_alloc_v4 a = { .journal_seq = journal, .gen = gen, .oldest_gen = gen, .dirty_sectors = dirty };

	SET_BCH_ALLOC_V4_NEED_DISCARD(&a, 1);
	SET_BCH_ALLOC_V4_NEED_INC_GEN(&a, 1);
	SET_BCH_ALLOC_V4_BACKPOINTERS_START(&a, BCH_ALLOC_V4_U64s);
	a.data_type = BCH_DATA_user;
	a.io_time[0] = 1;
	a.io_time[1] = clock;
	return a;
}

/* A bucket that is emptied, at a journal number. */
static struct bch_alloc_v4 emptied(struct bch_alloc_v4 was, __u64 journal)
{
	struct bch_alloc_v4 a = was;

	a.flags = 0;
	SET_BCH_ALLOC_V4_NEED_DISCARD(&a, BCH_ALLOC_V4_NEED_DISCARD(&was));
	SET_BCH_ALLOC_V4_BACKPOINTERS_START(&a, BCH_ALLOC_V4_BACKPOINTERS_START(&was));
	a.gen = was.gen + 1;
	a.oldest_gen = a.gen;
	a.data_type = BCH_DATA_need_discard;
	a.stripe_redundancy = 0;
	a.dirty_sectors = 0;
	a._fragmentation_lru = journal;
	return a;
}

/* A bucket that is discarded. */
static struct bch_alloc_v4 discarded(struct bch_alloc_v4 a)
{
	SET_BCH_ALLOC_V4_NEED_DISCARD(&a, 0);
	a.journal_seq = 0;
	a.data_type = BCH_DATA_free;
	a._fragmentation_lru = 0;
	return a;
}

/* New alloc values. */
static void new_alloc_values(void)
{
	for (unsigned i = 0; i < VALUES; i++) {
		__u64 journal = value(), clock = value();
		__u32 dirty = value();
		__u8 gen = value();
		union alloc ours, theirs = { .a = new_alloc(journal, gen, dirty, clock) };

		values(ours.bytes, sizeof(ours));
		same("new alloc, bytes", format_new_alloc(ours.bytes, sizeof(ours), journal, gen, dirty, clock), sizeof(theirs));
		same_bytes("new alloc", &ours, &theirs, sizeof(theirs));
	}
}

/* Any alloc value, emptied; it then has no age. */
static void emptied_values(void)
{
	for (unsigned i = 0; i < VALUES; i++) {
		__u64 journal = value();
		union alloc ours, theirs;

		values(ours.bytes, sizeof(ours));
		theirs.a = emptied(ours.a, journal);
		format_emptied(ours.bytes, sizeof(ours), journal);
		same_bytes("emptied", &ours, &theirs, sizeof(theirs));
		same("emptied, age", 0, alloc_gc_gen(ours.a));
	}
}

/* Any alloc value, discarded. */
static void discarded_values(void)
{
	for (unsigned i = 0; i < VALUES; i++) {
		union alloc ours, theirs;

		values(ours.bytes, sizeof(ours));
		theirs.a = discarded(ours.a);
		format_discarded(ours.bytes, sizeof(ours));
		same_bytes("discarded", &ours, &theirs, sizeof(theirs));
	}
}

/* A value of any length, as it is emptied: the struct has its first bytes, and what stands after them stays. */
static void emptied_long(__u8 *bytes, size_t len, __u64 journal)
{
	union alloc u = { .bytes = { 0 } };
	size_t n = len < sizeof(u) ? len : sizeof(u);

	if (len < offsetof(struct bch_alloc_v4, stripe_sectors) || len > 256)
		return;
	memcpy(&u, bytes, n);
	u.a = emptied(u.a, journal);
	memcpy(bytes, &u, n);
}

/* Values of every length up to the longest, emptied. */
static void lengths(void)
{
	for (size_t len = 0; len <= LONGEST; len++) {
		__u8 ours[LONGEST], theirs[LONGEST];
		__u64 journal = value();

		values(ours, LONGEST);
		memcpy(theirs, ours, LONGEST);
		format_emptied(ours, len, journal);
		emptied_long(theirs, len, journal);
		same_bytes("emptied, of some length", ours, theirs, LONGEST);
	}
}

/* Data is placed in a bucket, it is emptied and it is discarded: the type that is stored is the one that the header tells from the rest of the value. */
static void bucket_life(void)
{
	for (unsigned i = 0; i < VALUES; i++) {
		__u64 journal = value(), clock = value();
		__u32 dirty = value() | 1;
		__u8 gen = value();
		union alloc u;

		format_new_alloc(u.bytes, sizeof(u), journal, gen, dirty, clock);
		same("type of a new value", u.a.data_type, alloc_data_type(u.a, BCH_DATA_user));
		same("words of a new value", sizeof(u) / sizeof(__u64), alloc_v4_u64s(&u.a));
		format_emptied(u.bytes, sizeof(u), value());
		same("type of an emptied value", u.a.data_type, alloc_data_type(u.a, BCH_DATA_user));
		format_discarded(u.bytes, sizeof(u));
		same("type of a discarded value", u.a.data_type, alloc_data_type(u.a, BCH_DATA_user));
	}
}

/* A backpointer and its bytes; 3 to 7 are not compared. */
union backpointer {
	struct bch_backpointer b;
	__u8 bytes[sizeof(struct bch_backpointer)];
};

/* Backpointers. */
static void backpointer_values(void)
{
	for (unsigned i = 0; i < VALUES; i++) {
		__u64 inode = value(), offset = value();
		__u32 snapshot = value(), stored = value();
		__u8 gen = value();
		union backpointer ours, theirs = { .bytes = { 0 } };

		theirs.b.btree_id = BTREE_ID_extents;
		theirs.b.data_type = BCH_DATA_user;
		theirs.b.bucket_len = stored;
		theirs.b.pos = SPOS(inode, offset, snapshot);
		values(ours.bytes, sizeof(ours));
		same("backpointer, bytes", format_backpointer(ours.bytes, sizeof(ours), gen, stored, inode, offset, snapshot), sizeof(theirs));
		same_bytes("backpointer, 0 to 2", ours.bytes, theirs.bytes, 3);
		same_bytes("backpointer, 8 to 31", ours.bytes + 8, theirs.bytes + 8, 24);
	}
}

/* A generation record and its bytes. */
union gens {
	struct bch_bucket_gens g;
	__u8 bytes[sizeof(struct bch_bucket_gens)];
};

/* Any generation record, with a bucket's generation. */
static void with_gen_values(void)
{
	for (unsigned i = 0; i < VALUES; i++) {
		__u64 bucket = value();
		__u8 gen = value();
		union gens ours, theirs;

		values(ours.bytes, sizeof(ours));
		theirs = ours;
		theirs.g.gens[bucket & KEY_TYPE_BUCKET_GENS_MASK] = gen;
		format_with_gen(ours.bytes, sizeof(ours), bucket, gen);
		same_bytes("bucket_gens", &ours, &theirs, sizeof(theirs));
	}
}

/* Of a bucket that is neither empty nor full: the header gives no other an index. */
static void fragmentation_values(void)
{
	for (unsigned i = 0; i < VALUES; i++) {
		__u16 sectors = value() % 65534 + 2;
		__u32 dirty = value() % (sectors - 1) + 1;
		struct bch_dev dev = { .mi.bucket_size = sectors };
		struct bch_alloc_v4 a = new_alloc(1, 0, dirty, 1);

		same("fragmentation", format_fragmentation(dirty, sectors - 1), alloc_lru_idx_fragmentation(a, &dev));
	}
}

/* Runs a group and tells its counts. */
static void group(const char *name, void (*run)(void))
{
	unsigned p = passed, f = failed;

	run();
	printf("%s: %u passed, %u failed\n", name, passed - p, failed - f);
}

int main(void)
{
	group("struct bch_alloc_v4, 15 members", alloc_v4);
	group("alloc_v4 flags", alloc_v4_flags);
	group("struct bch_extent_ptr", extent_ptr);
	group("struct bch_extent_crc32", extent_crc32);
	group("struct bch_extent_crc64", extent_crc64);
	group("struct bpos", bpos);
	group("struct bch_backpointer", backpointer);
	group("struct bch_bucket_gens", bucket_gens);
	group("numbers of types", numbers);
	group("pointers of ours", pointer_values);
	group("crc32 entries of ours", crc32_values);
	group("crc64 entries of ours", crc64_values);
	group("new alloc values of ours", new_alloc_values);
	group("emptied alloc values of ours", emptied_values);
	group("discarded alloc values of ours", discarded_values);
	group("alloc values of ours, of 0 to 300 bytes", lengths);
	group("data types of ours, told by alloc_data_type", bucket_life);
	group("backpointers of ours, bytes 3 to 7 (bucket_gen and pad) not held to this header", backpointer_values);
	group("generation records of ours", with_gen_values);
	group("fragmentation of ours, by alloc_lru_idx_fragmentation", fragmentation_values);
	printf("%u passed, %u failed\n", passed, failed);
	return failed != 0;
}
