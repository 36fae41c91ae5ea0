/* The six calls from C, by the header: the printed case of docs/FORMAT.md, "The program bucketlines", its apply, its fields in another order,
 * its sorted form, the generations of buckets, and refusals. */
#include <zerglaz.h>

#include <stdio.h>
#include <string.h>

static int passed, failed;

/* Counts one test. */
static void expect(const char *name, int holds) {
    if (holds) {
        passed++;
    } else {
        failed++;
        printf("FAILED: %s\n", name);
    }
}

/* A list under construction. */
struct list {
    uint8_t bytes[512];
    size_t length;
};

/* Appends a number of n bytes, lowest first. */
static void put(struct list *list, uint64_t number, int n) {
    for (int i = 0; i < n; i++) {
        list->bytes[list->length++] = (uint8_t)(number >> (8 * i));
    }
}

/* Appends field 1 of a call: bucket sectors 8, block sectors 1, batch 1. */
static void put_head(struct list *list, int call) {
    put(list, 1, 1);
    put(list, 39, 2);
    put(list, (uint64_t)call, 1);
    put(list, 8, 2);
    put(list, 1, 2);
    put(list, 0, 2);
    put(list, 0, 4);
    put(list, 1, 4);
    put(list, 0, 8);
    put(list, 0, 8);
    put(list, 0, 8);
}

/* Appends a key of a tree with a value of whole words. */
static void put_key(struct list *list, int tree, int type, uint32_t size, uint64_t inode,
                    uint64_t offset, const uint64_t *words, int count) {
    put(list, (uint64_t)tree, 1);
    put(list, 37 + 8 * (uint64_t)count, 2);
    put(list, (uint64_t)type, 1);
    put(list, size, 4);
    put(list, 0, 4);
    put(list, 0, 8);
    put(list, inode, 8);
    put(list, offset, 8);
    put(list, 0, 4);
    for (int i = 0; i < count; i++) {
        put(list, words[i], 8);
    }
}

/* Appends a row with one counter and two zeros. */
static void put_row(struct list *list, uint64_t inode, int64_t counter) {
    put(list, 73, 1);
    put(list, 40, 2);
    put(list, inode, 8);
    put(list, 0, 8);
    put(list, (uint64_t)counter, 8);
    put(list, 0, 8);
    put(list, 0, 8);
}

static const uint64_t waiting[8] = {7, 0x0009030300000021, 0, 1, 1, 0, 8, 0};
static const uint64_t freed[8] = {0, 0x0000030300000020, 0, 1, 1, 0, 0, 0};

/* The volume whose bucket 5 waits for its discard. */
static struct list before(void) {
    struct list list = {{0}, 0};
    put_head(&list, 3);
    put_key(&list, 4, 27, 0, 0, 5, waiting, 8);
    put_key(&list, 12, 25, 0, 8, 5, NULL, 0);
    return list;
}

/* Its fields in another order, the need-discard key so often. */
static struct list mixed(int often) {
    struct list list = {{0}, 0};
    put_key(&list, 12, 25, 0, 8, 5, NULL, 0);
    put_key(&list, 4, 27, 0, 0, 5, waiting, 8);
    put_head(&list, 3);
    for (int i = 1; i < often; i++) {
        put_key(&list, 12, 25, 0, 8, 5, NULL, 0);
    }
    return list;
}

/* The change list that is printed there. */
static struct list printed(void) {
    struct list list = {{0}, 0};
    put_key(&list, 4, 27, 0, 0, 5, freed, 8);
    put_key(&list, 11, 25, 1, 0, 6, NULL, 0);
    put_key(&list, 12, 0, 0, 8, 5, NULL, 0);
    put_row(&list, 0x0300000000000000, 1);
    put_row(&list, 0x0300090000000000, -1);
    put(&list, 75, 1);
    put(&list, 4, 2);
    put(&list, 5, 4);
    put(&list, 76, 1);
    put(&list, 0, 2);
    return list;
}

/* The volume after it. */
static struct list after(void) {
    struct list list = {{0}, 0};
    put_head(&list, 3);
    put_key(&list, 4, 27, 0, 0, 5, freed, 8);
    put_key(&list, 11, 25, 1, 0, 6, NULL, 0);
    return list;
}

/* A question for generations: a volume, buckets, and how many bytes of output are lent. */
struct question {
    struct list volume;
    uint32_t buckets[ZERGLAZ_MAX_BUCKETS_ASKED + 1];
    size_t count, room;
};

/* Buckets of a volume, its fields in any order, whose record of buckets 512 on stands so often: there and from bucket 0 on eight buckets have
 * generations. A key of another type stands where the record of buckets 256 on would, and a key with other bytes at another inode. */
static struct question asked(int often) {
    static const uint64_t generations[1] = {0x0807060504030201}, others[1] = {0x9999999999999999};
    struct question question = {{{0}, 0}, {0, 7, 8, 255, 256, 512, 519, 520}, 8, 8};
    struct list *volume = &question.volume;
    put_key(volume, 14, 30, 0, 1, 0, others, 1);
    for (int i = 0; i < often; i++) {
        put_key(volume, 14, 30, 0, 0, 2, generations, 1);
    }
    put_head(volume, 1);
    put_key(volume, 14, 29, 0, 0, 1, generations, 1);
    put_key(volume, 14, 30, 0, 0, 0, generations, 1);
    return question;
}

/* The generation of a bucket there. */
static uint8_t generation(uint32_t bucket) {
    int recorded = (bucket / 256 == 0 || bucket / 256 == 2) && bucket % 256 < 8;
    return recorded ? (uint8_t)(bucket % 256 + 1) : 0;
}

#define GUARD 16
static uint8_t out[2048];
static uint32_t scratch[ZERGLAZ_SUMS];

/* The output holds the answer, and 0xa5 beyond it. */
static int holds(const struct list *answer, size_t written) {
    size_t i = answer->length;
    while (i < sizeof out && out[i] == 0xa5) {
        i++;
    }
    return written == answer->length && memcmp(out, answer->bytes, written) == 0 && i == sizeof out;
}

/* Nothing was written. */
static int untouched(size_t written) {
    const struct list none = {{0}, 0};
    return holds(&none, written);
}

/* Generations answers a question with this number and so many keys visited. An accepted one has its generations between guards; all else of
 * the output is as it was. */
static int answers(const struct question *question, uint32_t number, size_t keys) {
    const struct list *volume = &question->volume;
    size_t visited = 99, count = question->count;
    uint8_t *lent = out + GUARD;
    memset(out, 0xa5, sizeof out);
    if (zerglaz_generations(volume->bytes, volume->length, question->buckets, count, lent, question->room, &visited) != number) {
        return 0;
    }
    for (size_t i = 0; number == ZERGLAZ_ACCEPTED && i < count; i++) {
        if (lent[i] != generation(question->buckets[i])) {
            return 0;
        }
        lent[i] = 0xa5;
    }
    return visited == keys && untouched(0);
}

/* Generations that are accepted: in an exact and in a longer output, of buckets whose records the walk leaves behind, of none, and of all that
 * may be asked for. */
static void accepted_generations(void) {
    struct question question = asked(1);
    expect("generations", answers(&question, ZERGLAZ_ACCEPTED, 4));
    question.room++;
    expect("generations, a longer output", answers(&question, ZERGLAZ_ACCEPTED, 4));
    question.count = 4;
    expect("generations, the first record alone", answers(&question, ZERGLAZ_ACCEPTED, 2));
    question.count = question.room = 0;
    expect("generations, no buckets", answers(&question, ZERGLAZ_ACCEPTED, 0));
    question.buckets[0] = ZERGLAZ_MAX_BUCKETS - 1;
    question.count = question.room = 1;
    expect("generations, the last bucket", answers(&question, ZERGLAZ_ACCEPTED, 4));
    question.count = question.room = ZERGLAZ_MAX_BUCKETS_ASKED;
    for (uint32_t i = 0; i <= ZERGLAZ_MAX_BUCKETS_ASKED; i++) {
        question.buckets[i] = i;
    }
    expect("generations, as many buckets as may be", answers(&question, ZERGLAZ_ACCEPTED, 4));
    question.count++;
    expect("generations, a bucket more", answers(&question, ZERGLAZ_LIMIT_PASSED, 0));
    question.buckets[ZERGLAZ_MAX_BUCKETS_ASKED]--;
    expect("generations, the last not above", answers(&question, ZERGLAZ_BROKEN_LAYOUT, 0));
}

/* Generations that are refused. */
static void refused_generations(void) {
    struct question short_output = asked(1), broken = asked(1), requests = asked(1), equal = asked(1), high = asked(1), twice = asked(2);
    short_output.room--;
    expect("generations, a short output", answers(&short_output, ZERGLAZ_OUTPUT_TOO_SHORT, 0));
    broken.volume.length--;
    expect("generations, a broken volume", answers(&broken, ZERGLAZ_BROKEN_LAYOUT, 0));
    put(&requests.volume, 65, 1);
    put(&requests.volume, 13, 2);
    put(&requests.volume, 1 + (1 << 16), 8);
    put(&requests.volume, 0, 5);
    expect("generations, a list with a request", answers(&requests, ZERGLAZ_BROKEN_LAYOUT, 0));
    equal.buckets[1] = equal.buckets[0];
    expect("generations, equal buckets", answers(&equal, ZERGLAZ_BROKEN_LAYOUT, 0));
    high.buckets[7] = ZERGLAZ_MAX_BUCKETS;
    expect("generations, a bucket past the limit", answers(&high, ZERGLAZ_LIMIT_PASSED, 0));
    expect("generations, a key twice", answers(&twice, ZERGLAZ_STANDS_TWICE, 0));
    twice.buckets[0] = twice.buckets[1];
    expect("generations, a key twice and equal buckets", answers(&twice, ZERGLAZ_BROKEN_LAYOUT, 0));
}

int main(void) {
    struct list volume = before(), change = printed(), next = after();
    size_t written = 99;
    memset(out, 0xa5, sizeof out);
    uint32_t number = zerglaz_discard(volume.bytes, volume.length, out, change.length - 1, &written);
    expect("a short output", number == ZERGLAZ_OUTPUT_TOO_SHORT && untouched(written));
    number = zerglaz_place(volume.bytes, volume.length, out, sizeof out, &written);
    expect("place, another call's list", number == ZERGLAZ_BROKEN_LAYOUT && untouched(written));
    number = zerglaz_release(volume.bytes, volume.length, scratch, ZERGLAZ_SUMS - 1, out, sizeof out, &written);
    expect("release, a short scratch", number == ZERGLAZ_SCRATCH_TOO_SHORT && untouched(written));
    scratch[65535] = 1;
    number = zerglaz_release(volume.bytes, volume.length, scratch, ZERGLAZ_SUMS, out, sizeof out, &written);
    expect("release, another call's list", number == ZERGLAZ_BROKEN_LAYOUT && untouched(written));
    expect("release clears its scratch", scratch[65535] == 0);
    number = zerglaz_discard(volume.bytes, volume.length, out, sizeof out, &written);
    expect("discard", number == ZERGLAZ_ACCEPTED && holds(&change, written));
    memset(out, 0xa5, sizeof out);
    number = zerglaz_apply(volume.bytes, volume.length, change.bytes, change.length, out, sizeof out, &written);
    expect("apply", number == ZERGLAZ_ACCEPTED && holds(&next, written));
    memset(out, 0xa5, sizeof out);
    struct list other = mixed(1), twice = mixed(2);
    number = zerglaz_sort(other.bytes, other.length, out, other.length - 1, &written);
    expect("sort, a short output", number == ZERGLAZ_OUTPUT_TOO_SHORT && untouched(written));
    number = zerglaz_sort(twice.bytes, twice.length, out, sizeof out, &written);
    expect("sort, a key twice", number == ZERGLAZ_STANDS_TWICE && untouched(written));
    number = zerglaz_discard(twice.bytes, twice.length, out, sizeof out, &written);
    expect("discard, a key twice", number == ZERGLAZ_STANDS_TWICE && untouched(written));
    number = zerglaz_apply(twice.bytes, twice.length, change.bytes, change.length, out, sizeof out, &written);
    expect("apply, a key twice", number == ZERGLAZ_STANDS_TWICE && untouched(written));
    number = zerglaz_sort(other.bytes, other.length, out, sizeof out, &written);
    expect("sort", number == ZERGLAZ_ACCEPTED && holds(&volume, written));
    memset(out, 0xa5, sizeof out);
    number = zerglaz_sort(volume.bytes, volume.length, out, sizeof out, &written);
    expect("sort, in order", number == ZERGLAZ_ACCEPTED && holds(&volume, written));
    memset(out, 0xa5, sizeof out);
    number = zerglaz_discard(other.bytes, other.length, out, sizeof out, &written);
    expect("discard, in another order", number == ZERGLAZ_ACCEPTED && holds(&change, written));
    memset(out, 0xa5, sizeof out);
    number = zerglaz_apply(other.bytes, other.length, change.bytes, change.length, out, sizeof out, &written);
    expect("apply, in another order", number == ZERGLAZ_ACCEPTED && holds(&next, written));
    accepted_generations();
    refused_generations();
#ifdef INSTALLED_VERSION
    expect("the version", strcmp(ZERGLAZ_VERSION, INSTALLED_VERSION) == 0);
#endif
    printf("%d passed, %d failed\n", passed, failed);
    return failed != 0;
}
