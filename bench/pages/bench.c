/* Times the page functions, ours beside C's, in nanoseconds per call. See `run`.
 *
 * C's functions here are plain ones for the same page format. They trust the page: no check.
 * The last column adds C's own check, which is what ours always do.
 * Before any timing, ours and C's must give the same answers. */

#include <stdbool.h>
#include <stddef.h>
#include <stdint.h>
#include <stdio.h>
#include <stdlib.h>
#include <string.h>
#include <time.h>

/* ---- ours, from the static library ---- */

uint32_t sym_hash(const uint8_t *key, size_t len);
bool sym_check(const uint8_t *page, size_t len);
/* check + search: the value's offset, NOT_THERE, or NOT_GOOD */
uint32_t sym_find(const uint8_t *page, size_t plen, const uint8_t *key, size_t klen);
/* these three: false when the page is not good */
bool sym_without(const uint8_t *page, size_t plen, const uint8_t *key, size_t klen,
                 uint8_t *out, size_t olen);
bool sym_append(const uint8_t *page, size_t plen, const uint8_t *key, size_t klen,
                const uint8_t *value, size_t vlen, uint8_t *out, size_t olen);
/* keeps the pairs whose hash has `low` as its lowest `bits` bits */
bool sym_keep(const uint8_t *page, size_t plen, uint32_t bits, uint32_t low,
              uint8_t *out, size_t olen);

#define PAGE 1024
#define NOT_THERE 2000
#define NOT_GOOD 3000

/* ---- C's ---- */

#define CALLED static __attribute__((noinline))

static inline unsigned get(const uint8_t *page, unsigned i) /* number i of a page */
{
    return page[2 * i] | (unsigned)page[2 * i + 1] << 8;
}

static inline void put(uint8_t *page, unsigned i, unsigned number)
{
    page[2 * i] = (uint8_t)number;
    page[2 * i + 1] = (uint8_t)(number >> 8);
}

static inline uint64_t eight(const uint8_t *at)
{
    uint64_t x;
    memcpy(&x, at, 8);
    return x;
}

static inline uint64_t last_eight_slow(const uint8_t *end, size_t len)
{
    uint64_t x = 0;
    for (size_t i = 1; i <= len && i <= 8; i++)
        x = x << 8 | end[-(ptrdiff_t)i];
    return x;
}

/* the last eight bytes of a key, or all of a shorter one, as a number */
static inline uint64_t last_eight(const uint8_t *key, size_t len)
{
    return len >= 8 ? eight(key + len - 8) : last_eight_slow(key + len, len);
}

/* the same for a key that ends at `end` on a page: a shorter one is shifted out of eight bytes */
static inline uint64_t last_eight_on(const uint8_t *page, unsigned end, size_t len)
{
    if (len >= 8)
        return eight(page + end - 8);
    if (end >= 8 && len > 0)
        return eight(page + end - 8) >> (64 - 8 * len);
    return last_eight_slow(page + end, len);
}

CALLED uint32_t c_hash(const uint8_t *key, size_t len)
{
    uint32_t h = 0;
    for (size_t i = 0; i < len; i++)
        h = key[i] + 65599u * h;
    return h;
}

CALLED uint32_t c_search(const uint8_t *page, const uint8_t *key, size_t len)
{
    unsigned n = get(page, 0);
    unsigned end = PAGE;
    uint64_t last = last_eight(key, len);
    for (unsigned i = 1; i < n; i += 2) {
        unsigned k = get(page, i), v = get(page, i + 1);
        if (end - k == len && last_eight_on(page, end, len) == last
            && (len <= 8 || memcmp(page + k, key, len - 8) == 0))
            return v;
        end = v;
    }
    return NOT_THERE;
}

/* whether the key at k, len bytes, is one of the keys before number i of the page */
static bool occurs_before(const uint8_t *page, unsigned i, unsigned k, size_t len)
{
    unsigned end = PAGE;
    uint64_t last = last_eight_on(page, k + (unsigned)len, len);
    for (unsigned j = 1; j < i; j += 2) {
        unsigned start = get(page, j);
        if (end - start == len && last_eight_on(page, end, len) == last
            && (len <= 8 || memcmp(page + start, page + k, len - 8) == 0))
            return true;
        end = get(page, j + 1);
    }
    return false;
}

/* Marks every key in a field of bits: only a key whose bit is set already is compared with others. */
CALLED bool c_check(const uint8_t *page)
{
    unsigned n = get(page, 0);
    unsigned end = PAGE;
    uint64_t marks[32] = {0};
    if (n % 2 != 0 || n > 510)
        return false;
    for (unsigned i = 1; i < n; i += 2) {
        unsigned k = get(page, i), v = get(page, i + 1);
        if (k >= end || v > k)
            return false;
        size_t len = end - k;
        uint64_t mixed = (last_eight_on(page, end, len) + len) * UINT64_C(0x9e3779b97f4a7c15);
        unsigned mark = (unsigned)(mixed >> 53);
        uint64_t bit = UINT64_C(1) << (mark % 64);
        if (marks[mark / 64] & bit && occurs_before(page, i, k, len))
            return false;
        marks[mark / 64] |= bit;
        end = v;
    }
    return end >= 2 * (n + 1);
}

/* Compares every two keys. */
CALLED bool c_check_every_two(const uint8_t *page)
{
    unsigned n = get(page, 0);
    unsigned end = PAGE;
    if (n % 2 != 0 || n > 510)
        return false;
    for (unsigned i = 1; i < n; i += 2) {
        unsigned k = get(page, i), v = get(page, i + 1);
        if (k >= end || v > k || occurs_before(page, i, k, end - k))
            return false;
        end = v;
    }
    return end >= 2 * (n + 1);
}

CALLED bool c_without(const uint8_t *page, const uint8_t *key, size_t len, uint8_t *out)
{
    unsigned n = get(page, 0);
    unsigned end = PAGE;
    uint64_t last = last_eight(key, len);
    memcpy(out, page, PAGE);
    for (unsigned i = 1; i < n; i += 2) {
        unsigned k = get(page, i), v = get(page, i + 1);
        if (end - k == len && last_eight_on(page, end, len) == last
            && (len <= 8 || memcmp(page + k, key, len - 8) == 0)) {
            unsigned gone = end - v, lowest = get(page, n);
            memcpy(out + lowest + gone, page + lowest, v - lowest);
            for (unsigned j = i; j + 2 <= n; j++)
                put(out, j, get(page, j + 2) + gone);
            put(out, 0, n - 2);
            return true;
        }
        end = v;
    }
    return false;
}

CALLED bool c_append(const uint8_t *page, const uint8_t *key, size_t klen,
                     const uint8_t *value, size_t vlen, uint8_t *out)
{
    unsigned n = get(page, 0);
    unsigned end = n == 0 ? PAGE : get(page, n);
    if (klen + vlen + 2 * (n + 3) > end)
        return false;
    memcpy(out, page, PAGE);
    end -= (unsigned)klen;
    memcpy(out + end, key, klen);
    put(out, n + 1, end);
    end -= (unsigned)vlen;
    memcpy(out + end, value, vlen);
    put(out, n + 2, end);
    put(out, 0, n + 2);
    return true;
}

CALLED bool c_keep(const uint8_t *page, uint32_t bits, uint32_t low, uint8_t *out)
{
    unsigned n = get(page, 0), kept = 0;
    unsigned end = PAGE, to = PAGE;
    uint32_t mask = bits >= 32 ? UINT32_MAX : (UINT32_C(1) << bits) - 1;
    memset(out, 0, PAGE);
    for (unsigned i = 1; i < n; i += 2) {
        unsigned k = get(page, i), v = get(page, i + 1);
        if ((c_hash(page + k, end - k) & mask) == low) {
            memcpy(out + to - (end - v), page + v, end - v);
            put(out, kept + 1, to - (end - k));
            to -= end - v;
            put(out, kept + 2, to);
            kept += 2;
        }
        end = v;
    }
    put(out, 0, kept);
    return true;
}

/* ---- names ---- */

#define PAGES 8      /* 8 KiB: in the first cache */
#define QUERIES 1024 /* half of them names that are there */
#define MOST_NAME 64
#define MOST_NAMES 4096
#define VALUE 10

static uint64_t random_state;

static unsigned below(unsigned limit)
{
    random_state = random_state * UINT64_C(6364136223846793005) + UINT64_C(1442695040888963407);
    return (unsigned)((random_state >> 33) % limit);
}

static const char *one_of(const char *const *words, unsigned count)
{
    return words[below(count)];
}

#define PICK(words) one_of(words, sizeof words / sizeof *words)

static int linker_name(char *to)
{
    static const char *const things[] = {"uart", "spi",  "i2c", "gpio", "dma",  "timer", "net",  "tcp",
                                         "mem",  "str",  "log", "adc",  "can",  "usb",   "flash", "task"};
    static const char *const verbs[] = {"init", "isr",  "read",  "write", "open", "close",
                                        "poll", "reset", "start", "stop",  "flush", "send"};
    switch (below(8)) {
    case 0:
        return sprintf(to, ".Lstr.%u", below(400));
    case 1:
        return sprintf(to, "%s%s", PICK(things), PICK(verbs));
    case 2:
        return sprintf(to, "__%s_%s", PICK(things), PICK(verbs));
    case 3:
        return sprintf(to, "%s_%s", PICK(things), PICK(verbs));
    default:
        return sprintf(to, "%s%u_%s", PICK(things), below(8), PICK(verbs));
    }
}

static int mangled_name(char *to)
{
    static const char *const spaces[] = {"3hal", "3net", "6driver", "2os", "7storage"};
    static const char *const classes[] = {"4Uart", "6Buffer", "5Queue", "9Scheduler", "6Device", "10FileSystem"};
    static const char *const methods[] = {"4read", "5write", "4open", "4push", "3pop", "5flush", "9configure",
                                          "10invalidate"};
    static const char *const given[] = {"v", "PKhm", "RKNS_6BufferE", "jj", "PhmRKNS_7OptionsE", "NS_4ModeE",
                                        "RKSt6vectorIhSaIhEE", "RKNS_7OptionsEj"};
    return sprintf(to, "_ZN%s%s%sE%s", PICK(spaces), PICK(classes), PICK(methods), PICK(given));
}

/* ---- pages and queries ---- */

struct query {
    const uint8_t *page;
    const uint8_t *key;
    size_t len;
};

struct set {
    const char *title;
    int (*name)(char *);
    unsigned room; /* bytes left free on a page, for an appended pair */
    uint8_t pages[PAGES][PAGE];
    struct query mixed[QUERIES]; /* half hits, half misses */
    struct query hits[QUERIES];
    struct query misses[QUERIES];
    unsigned pairs, name_bytes;
};

static char used[MOST_NAMES][MOST_NAME];
static size_t used_len[MOST_NAMES];
static unsigned used_count;

/* a name that no call gave before: its number */
static unsigned new_name(const struct set *set)
{
    for (;;) {
        char name[2 * MOST_NAME];
        size_t len = (size_t)set->name(name);
        bool again = len > MOST_NAME;
        for (unsigned i = 0; i < used_count && !again; i++)
            again = used_len[i] == len && memcmp(used[i], name, len) == 0;
        if (again)
            continue;
        if (used_count == MOST_NAMES)
            abort();
        memcpy(used[used_count], name, len);
        used_len[used_count] = len;
        return used_count++;
    }
}

/* packed copies of the keys, so that they take little cache */
static uint8_t key_bytes[1 << 18];
static size_t key_bytes_used;

static struct query query_for(const uint8_t *page, unsigned name)
{
    struct query q = {page, key_bytes + key_bytes_used, used_len[name]};
    if (key_bytes_used + q.len > sizeof key_bytes)
        abort();
    memcpy(key_bytes + key_bytes_used, used[name], q.len);
    key_bytes_used += q.len;
    return q;
}

static void random_value(uint8_t *value)
{
    for (unsigned i = 0; i < VALUE; i++)
        value[i] = (uint8_t)below(256);
}

static void make_set(struct set *set)
{
    static struct query all_hits[PAGES * 128], all_misses[QUERIES];
    unsigned hits = 0;
    uint8_t value[VALUE], out[PAGE];
    used_count = 0;
    for (unsigned p = 0; p < PAGES; p++) {
        memset(set->pages[p], 0, PAGE);
        for (;;) {
            unsigned name = new_name(set);
            unsigned n = get(set->pages[p], 0), end = n == 0 ? PAGE : get(set->pages[p], n);
            if (end < 2 * (n + 3) + used_len[name] + VALUE + set->room) {
                used_count--;
                break;
            }
            random_value(value);
            if (!c_append(set->pages[p], (uint8_t *)used[name], used_len[name], value, VALUE, out))
                abort();
            memcpy(set->pages[p], out, PAGE);
            all_hits[hits++] = query_for(set->pages[p], name);
            set->name_bytes += (unsigned)used_len[name];
        }
    }
    set->pairs = hits;
    unsigned misses = QUERIES / 2;
    for (unsigned i = 0; i < misses; i++)
        all_misses[i] = query_for(set->pages[below(PAGES)], new_name(set));
    for (unsigned i = 0; i < QUERIES; i++) {
        set->hits[i] = all_hits[i % hits];
        set->misses[i] = all_misses[i % misses];
        set->mixed[i] = i % 2 == 0 ? all_hits[i / 2 % hits] : all_misses[i / 2 % misses];
    }
}

static void shuffle(struct query *queries)
{
    for (unsigned i = QUERIES - 1; i > 0; i--) {
        unsigned j = below(i + 1);
        struct query q = queries[i];
        queries[i] = queries[j];
        queries[j] = q;
    }
}

/* ---- the same answers ---- */

static void disagree(const char *what, const struct set *set)
{
    fprintf(stderr, "ours and C's disagree: %s (%s)\n", what, set->title);
    exit(1);
}

/* the same pairs at the same places: the free bytes between may differ */
static bool same_pairs(const uint8_t *a, const uint8_t *b)
{
    unsigned n = get(a, 0);
    if (get(b, 0) != n || n > 510 || memcmp(a, b, 2 * (n + 1)) != 0)
        return false;
    unsigned end = n == 0 ? PAGE : get(a, n);
    return end <= PAGE && memcmp(a + end, b + end, PAGE - end) == 0;
}

static void same_answers(const struct set *set)
{
    static const uint8_t value[VALUE] = "ten bytes!";
    uint8_t a[PAGE], b[PAGE];
    unsigned good = 0, bad = 0;
    for (unsigned i = 0; i < QUERIES; i++) {
        struct query q = set->mixed[i];
        uint32_t place = c_search(q.page, q.key, q.len);
        if (sym_hash(q.key, q.len) != c_hash(q.key, q.len))
            disagree("hash", set);
        if (!c_check(q.page) || !c_check_every_two(q.page) || !sym_check(q.page, PAGE))
            disagree("check of a good page", set);
        if (sym_find(q.page, PAGE, q.key, q.len) != place || (place == NOT_THERE) != (i % 2 == 1))
            disagree("search", set);
        if (place != NOT_THERE) {
            if (!c_without(q.page, q.key, q.len, a) || !sym_without(q.page, PAGE, q.key, q.len, b, PAGE)
                || !same_pairs(a, b) || !c_check(a))
                disagree("remove", set);
        } else if (!c_append(q.page, q.key, q.len, value, VALUE, a)
                   || !sym_append(q.page, PAGE, q.key, q.len, value, VALUE, b, PAGE)
                   || !same_pairs(a, b) || !c_check(a))
            disagree("append", set);
        for (uint32_t low = 0; low < 2; low++)
            if (!c_keep(q.page, 1, low, a) || !sym_keep(q.page, PAGE, 1, low, b, PAGE)
                || !same_pairs(a, b) || !c_check(a))
                disagree("keep", set);
    }
    /* damaged pages */
    for (unsigned i = 0; i < 20000; i++) {
        struct query q = set->mixed[below(QUERIES)];
        uint8_t page[PAGE];
        memcpy(page, q.page, PAGE);
        unsigned n = get(page, 0), at = 1 + below(n);
        static const int steps[] = {-VALUE, -1, 1, VALUE, 300, -300};
        switch (i % 6) {
        case 0: /* an offset moves */
            put(page, at, get(page, at) + (unsigned)steps[below(6)]);
            break;
        case 1: /* the count changes */
            put(page, 0, n + (unsigned)steps[below(6)]);
            break;
        case 2: /* a byte changes */
            page[below(PAGE)] = (uint8_t)below(256);
            break;
        case 3: { /* a key becomes like another of its length */
            unsigned k = 1 + 2 * below(n / 2), j = 1 + 2 * below(n / 2);
            unsigned kend = k == 1 ? PAGE : get(page, k - 1), jend = j == 1 ? PAGE : get(page, j - 1);
            if (kend - get(page, k) == jend - get(page, j))
                memmove(page + get(page, k), page + get(page, j), kend - get(page, k));
            break;
        }
        case 4: /* the last offset near the end of the offsets */
            put(page, n, 2 * (n + 1) + below(3) - 1);
            break;
        default: /* a value, or a key, of no bytes */
            put(page, at, at == 1 ? PAGE : get(page, at - 1));
        }
        bool is_good = c_check(page);
        if (is_good)
            good++;
        else
            bad++;
        if (c_check_every_two(page) != is_good || sym_check(page, PAGE) != is_good)
            disagree("check of a damaged page", set);
        if (sym_find(page, PAGE, q.key, q.len) != (is_good ? c_search(page, q.key, q.len) : NOT_GOOD))
            disagree("search of a damaged page", set);
        if (!is_good
            && (sym_without(page, PAGE, q.key, q.len, a, PAGE)
                || sym_append(page, PAGE, q.key, q.len, value, VALUE, a, PAGE)
                || sym_keep(page, PAGE, 1, 0, a, PAGE)))
            disagree("a page that is not good must be refused", set);
    }
    printf("the same answers: %u queries, %u damaged pages (%u good, %u not)\n", QUERIES, good + bad, good, bad);
}

/* ---- times ---- */

#define REPEATS 41
#define PASSES 4

static volatile uint64_t sink;

static uint64_t now(void)
{
    struct timespec t;
    clock_gettime(CLOCK_MONOTONIC, &t);
    return (uint64_t)t.tv_sec * 1000000000u + (uint64_t)t.tv_nsec;
}

/* ns per call of `expression`, for the queries q of a list */
#define TIME(list, expression)                                             \
    ({                                                                     \
        uint64_t sum = 0, start = now();                                   \
        for (unsigned pass = 0; pass < PASSES; pass++)                     \
            for (const struct query *q = (list); q < (list) + QUERIES; q++) { \
                sum += (expression);                                       \
                __asm__ volatile("" ::: "memory");                         \
            }                                                              \
        uint64_t spent = now() - start;                                    \
        sink += sum;                                                       \
        (double)spent / (PASSES * QUERIES);                                \
    })

static int by_size(const void *a, const void *b)
{
    double x = *(const double *)a, y = *(const double *)b;
    return (x > y) - (x < y);
}

static double median(double *times)
{
    qsort(times, REPEATS, sizeof *times, by_size);
    return times[REPEATS / 2];
}

/* One row of the table. Ours and C's take turns; the first turn of all is not counted. Leaves ours / C's in `ratio`. */
#define ROW(title, list, our_call, c_call, c_checked_call)                                            \
    do {                                                                                              \
        static double ours[REPEATS], cs[REPEATS], checked[REPEATS];                                   \
        for (int r = -1; r < REPEATS; r++) {                                                          \
            shuffle(list);                                                                            \
            double one = TIME(list, our_call), two = TIME(list, c_call), three = TIME(list, c_checked_call); \
            if (r >= 0)                                                                               \
                ours[r] = one, cs[r] = two, checked[r] = three;                                       \
        }                                                                                             \
        double o = median(ours), c = median(cs), k = median(checked);                                 \
        ratio = o / c;                                                                                \
        printf("%-38s %9.1f %9.1f %7.2f %14.1f\n", title, o, c, ratio, k);                            \
    } while (0)

/* Prints the table; gives check + search over C's search. */
static double measure(struct set *set)
{
    static uint8_t out[PAGE];
    static const uint8_t value[VALUE] = "ten bytes!";
    double ratio, aim;
    printf("%-38s %9s %9s %7s %14s\n", "", "ours ns", "C's ns", "ratio", "C's with check");
    ROW("check", set->mixed, sym_check(q->page, PAGE), c_check(q->page), c_check(q->page));
    ROW("check, C's compares every two keys", set->mixed, sym_check(q->page, PAGE), c_check_every_two(q->page),
        c_check_every_two(q->page));
    ROW("check + search: hits and misses", set->mixed, sym_find(q->page, PAGE, q->key, q->len),
        c_search(q->page, q->key, q->len), c_check(q->page) ? c_search(q->page, q->key, q->len) : NOT_GOOD);
    aim = ratio;
    ROW("check + search: hits", set->hits, sym_find(q->page, PAGE, q->key, q->len),
        c_search(q->page, q->key, q->len), c_check(q->page) ? c_search(q->page, q->key, q->len) : NOT_GOOD);
    ROW("check + search: misses", set->misses, sym_find(q->page, PAGE, q->key, q->len),
        c_search(q->page, q->key, q->len), c_check(q->page) ? c_search(q->page, q->key, q->len) : NOT_GOOD);
    ROW("hash of a name", set->mixed, sym_hash(q->key, q->len), c_hash(q->key, q->len), c_hash(q->key, q->len));
    ROW("check + remove a key", set->hits, sym_without(q->page, PAGE, q->key, q->len, out, PAGE),
        c_without(q->page, q->key, q->len, out), c_check(q->page) && c_without(q->page, q->key, q->len, out));
    ROW("check + append a pair", set->misses, sym_append(q->page, PAGE, q->key, q->len, value, VALUE, out, PAGE),
        c_append(q->page, q->key, q->len, value, VALUE, out),
        c_check(q->page) && c_append(q->page, q->key, q->len, value, VALUE, out));
    ROW("check + keep half by a hash bit", set->mixed, sym_keep(q->page, PAGE, 1, q->len & 1, out, PAGE),
        c_keep(q->page, 1, q->len & 1, out), c_check(q->page) && c_keep(q->page, 1, q->len & 1, out));
    return aim;
}

static struct set short_names = {.title = "linker names", .name = linker_name, .room = 40};
static struct set long_names = {.title = "long mangled names", .name = mangled_name, .room = MOST_NAME + VALUE + 4};

int main(void)
{
    struct set *sets[] = {&short_names, &long_names};
    double ratios[2];
    for (int i = 0; i < 2; i++) {
        struct set *set = sets[i];
        random_state = 1;
        key_bytes_used = 0;
        make_set(set);
        printf("%s: %.1f on a page, %.1f bytes long, values of %d bytes, %d pages\n", set->title,
               (double)set->pairs / PAGES, (double)set->name_bytes / set->pairs, VALUE, PAGES);
        same_answers(set);
        ratios[i] = measure(set);
        printf("\n");
    }
    printf("aim, check + search within twice C's search: %s (%.2f times with %s, %.2f times with %s)\n",
           ratios[0] <= 2 && ratios[1] <= 2 ? "met" : "not met", ratios[0], sets[0]->title, ratios[1],
           sets[1]->title);
    return 0;
}
