/* Times fetches and walks over databases that the real sdbm wrote, and stores into empty ones, ours beside that sdbm, in
 * nanoseconds. See `run`.
 *
 * The real sdbm is the one that comes with Perl: its C functions stand in the library of SDBM_File, which is loaded here and
 * called without Perl. It reads and writes files, which lie in memory-backed storage; ours have an image in memory.
 * Ours check every page that they read, at every read. Both have to find and to count the same, and what was stored has to be
 * there afterwards. */

#include <dlfcn.h>
#include <fcntl.h>
#include <stdbool.h>
#include <stdint.h>
#include <stdio.h>
#include <stdlib.h>
#include <string.h>
#include <time.h>

/* ---- ours, from the static library; all answer UINT64_MAX where a call was refused ---- */

/* how many of the names were found, each fetched so many times */
uint64_t sym_fetch_flat(const uint8_t *image, size_t len, bool cached, const uint8_t *names, size_t nlen, uint32_t rounds);
uint64_t sym_fetch_slotted(const uint8_t *image, size_t len, bool cached, const uint8_t *names, size_t nlen, uint32_t rounds);
/* how many pairs so many walks show */
uint64_t sym_walk_flat(const uint8_t *image, size_t len, bool cached, uint32_t rounds);
uint64_t sym_walk_slotted(const uint8_t *image, size_t len, bool cached, uint32_t rounds);
/* whether each of the names was stored with the value, and all brought down to the image */
bool sym_store_slotted(uint8_t *image, size_t len, bool cached, const uint8_t *names, size_t nlen, const uint8_t *value, size_t vlen);

/* ---- the real sdbm ---- */

typedef struct {
    const char *dptr;
    int dsize;
} datum;

static void *(*sdbm_open)(const char *, int, int);
static void (*sdbm_close)(void *);
static datum (*sdbm_fetch)(void *, datum);
static int (*sdbm_store)(void *, datum, datum, int);
static datum (*sdbm_firstkey)(void *);
static datum (*sdbm_nextkey)(void *);

static void *symbol(void *library, const char *name)
{
    void *it = dlsym(library, name);
    if (it == NULL) {
        fprintf(stderr, "no %s in the library of SDBM_File\n", name);
        exit(1);
    }
    return it;
}

static void load_sdbm(const char *path)
{
    void *library = dlopen(path, RTLD_LAZY);
    if (library == NULL) {
        fprintf(stderr, "%s\n", dlerror());
        exit(1);
    }
    *(void **)&sdbm_open = symbol(library, "sdbm_open");
    *(void **)&sdbm_close = symbol(library, "sdbm_close");
    *(void **)&sdbm_fetch = symbol(library, "sdbm_fetch");
    *(void **)&sdbm_store = symbol(library, "sdbm_store");
    *(void **)&sdbm_firstkey = symbol(library, "sdbm_firstkey");
    *(void **)&sdbm_nextkey = symbol(library, "sdbm_nextkey");
}

/* ---- files ---- */

#define PAGE 1024
#define DIRECTORY 4096
#define REPLACE 1 /* how sdbm_store is told to replace */
#define SLOT 32
#define RECORD 1030

struct bytes {
    uint8_t *at;
    size_t len;
};

static struct bytes read_file(const char *folder, unsigned count, const char *kind)
{
    char path[4096];
    snprintf(path, sizeof path, "%s/%u.%s", folder, count, kind);
    FILE *file = fopen(path, "rb");
    struct bytes it = {malloc(1 << 26), 0};
    if (file == NULL || it.at == NULL) {
        perror(path);
        exit(1);
    }
    it.len = fread(it.at, 1, 1 << 26, file);
    fclose(file);
    return it;
}

/* the directory filled up to 4,096 bytes, and the pages */
static struct bytes flat_image(struct bytes dir, struct bytes pag)
{
    struct bytes it = {calloc(1, DIRECTORY + pag.len), DIRECTORY + pag.len};
    memcpy(it.at, dir.at, dir.len < DIRECTORY ? dir.len : DIRECTORY);
    memcpy(it.at + DIRECTORY, pag.at, pag.len);
    return it;
}

/* the same blocks as records with their numbers */
static struct bytes slotted_image(struct bytes flat)
{
    size_t blocks = flat.len / PAGE;
    struct bytes it = {malloc(blocks * RECORD), blocks * RECORD};
    for (size_t n = 0; n < blocks; n++) {
        uint8_t *record = it.at + n * RECORD;
        record[0] = 'S';
        record[1] = 'D';
        for (int i = 0; i < 4; i++)
            record[2 + i] = (uint8_t)(n >> (8 * i));
        memcpy(record + 6, flat.at + n * PAGE, PAGE);
    }
    return it;
}

/* ---- runs ---- */

static struct bytes flat, slotted, hits, misses;
static void *db;

static uint64_t sdbm_fetches(struct bytes names, uint32_t rounds)
{
    uint64_t found = 0;
    for (uint32_t r = 0; r < rounds; r++)
        for (const uint8_t *slot = names.at; slot < names.at + names.len; slot += SLOT) {
            datum key = {(const char *)slot + 1, slot[0]};
            found += sdbm_fetch(db, key).dptr != NULL;
        }
    return found;
}

static uint64_t sdbm_keys(struct bytes names, uint32_t rounds)
{
    uint64_t shown = 0;
    (void)names;
    for (uint32_t r = 0; r < rounds; r++)
        for (datum key = sdbm_firstkey(db); key.dptr != NULL; key = sdbm_nextkey(db))
            shown++;
    return shown;
}

/* sdbm's walk gives keys alone: the value of each is fetched */
static uint64_t sdbm_pairs(struct bytes names, uint32_t rounds)
{
    uint64_t shown = 0;
    (void)names;
    for (uint32_t r = 0; r < rounds; r++)
        for (datum key = sdbm_firstkey(db); key.dptr != NULL; key = sdbm_nextkey(db))
            shown += sdbm_fetch(db, key).dptr != NULL;
    return shown;
}

#define OURS(name, image, cached)                                                    \
    static uint64_t fetch_##name(struct bytes names, uint32_t rounds)                \
    {                                                                                \
        return sym_fetch_##image(image.at, image.len, cached, names.at, names.len, rounds); \
    }                                                                                \
    static uint64_t walk_##name(struct bytes names, uint32_t rounds)                 \
    {                                                                                \
        (void)names;                                                                 \
        return sym_walk_##image(image.at, image.len, cached, rounds);                \
    }
OURS(flat, flat, false)
OURS(slotted, slotted, false)
OURS(cached_flat, flat, true)
OURS(cached_slotted, slotted, true)

typedef uint64_t run(struct bytes names, uint32_t rounds);

/* ---- times ---- */

#define REPEATS 21
#define CALLS 100000 /* about so many calls are timed at once */

/* The time of the processor, system calls too, so that other work on the machine counts for little. */
static double now(void)
{
    struct timespec t;
    clock_gettime(CLOCK_PROCESS_CPUTIME_ID, &t);
    return (double)t.tv_sec * 1e9 + (double)t.tv_nsec;
}

static int by_size(const void *a, const void *b)
{
    double x = *(const double *)a, y = *(const double *)b;
    return (x > y) - (x < y);
}

static double spent(run *work, struct bytes names, uint32_t rounds, uint64_t wanted)
{
    double start = now();
    uint64_t counted = work(names, rounds);
    double time = now() - start;
    if (counted != wanted * rounds) {
        fprintf(stderr, "%llu counted, and not %llu\n", (unsigned long long)counted, (unsigned long long)wanted * rounds);
        exit(1);
    }
    return time;
}

/* nanoseconds for each of `count` calls of a round. What a run takes with no round, to open its image, is taken off. */
static double each(run *work, struct bytes names, unsigned count, uint64_t wanted)
{
    uint32_t rounds = 1 + CALLS / count;
    return (spent(work, names, rounds, wanted) - spent(work, names, 0, 0)) / ((double)rounds * count);
}

static double median(double *times)
{
    qsort(times, REPEATS, sizeof *times, by_size);
    return times[REPEATS / 2];
}

static bool met = true;

/* One row: four runs of ours, and the sdbm's last. They take turns; the first turn of all is not counted. */
static void row(const char *title, run *const runs[5], struct bytes names, unsigned count, uint64_t wanted, bool aim)
{
    static double times[5][REPEATS];
    double it[5];
    for (int r = -1; r < REPEATS; r++)
        for (int i = 0; i < 5; i++) {
            double time = each(runs[i], names, count, wanted);
            if (r >= 0)
                times[i][r] = time;
        }
    printf("%-22s", title);
    for (int i = 0; i < 5; i++) {
        it[i] = median(times[i]);
        printf(" %8.1f", it[i]);
    }
    printf("\n");
    for (int i = 0; aim && i < 4; i++)
        if (it[i] > it[4])
            met = false;
}

/* ---- stores ---- */

#define STORES 10000 /* at least so many are timed at once */
#define SPARE 64     /* records of an empty image beyond one for each page of the sdbm's file */

/* A database that is emptied, stored into, and looked at again. */
struct storing {
    void (*empty)(void);
    /* opens it, stores each of the names, and closes it */
    bool (*store)(struct bytes names);
    /* whether it holds these names and no other */
    bool (*holds)(struct bytes names);
};

/* the value of each name: an address, a size and an offset, as a linker has them */
static uint8_t value[10] = {0, 16, 0, 0, 1};
static struct bytes image;
static char new_files[4096]; /* the path of the sdbm's, without its two endings */

static void empty_image(void)
{
    memset(image.at, 0, image.len);
}

static bool store_slotted(struct bytes names)
{
    return sym_store_slotted(image.at, image.len, false, names.at, names.len, value, sizeof value);
}

static bool store_cached(struct bytes names)
{
    return sym_store_slotted(image.at, image.len, true, names.at, names.len, value, sizeof value);
}

static bool image_holds(struct bytes names)
{
    return sym_fetch_slotted(image.at, image.len, false, names.at, names.len, 1) == names.len / SLOT
        && sym_walk_slotted(image.at, image.len, false, 1) == names.len / SLOT;
}

static void remove_files(void)
{
    char file[4200];
    snprintf(file, sizeof file, "%s.dir", new_files);
    remove(file);
    snprintf(file, sizeof file, "%s.pag", new_files);
    remove(file);
}

static void *open_files(int flags)
{
    void *files = sdbm_open(new_files, flags, 0644);
    if (files == NULL) {
        perror(new_files);
        exit(1);
    }
    return files;
}

static bool store_files(struct bytes names)
{
    bool done = true;
    datum given = {(const char *)value, sizeof value};
    void *files = open_files(O_RDWR | O_CREAT);
    for (const uint8_t *slot = names.at; slot < names.at + names.len; slot += SLOT) {
        datum key = {(const char *)slot + 1, slot[0]};
        done &= sdbm_store(files, key, given, REPLACE) == 0;
    }
    sdbm_close(files);
    return done;
}

static bool files_hold(struct bytes names)
{
    bool all = true;
    size_t keys = 0;
    void *files = open_files(O_RDONLY);
    for (const uint8_t *slot = names.at; slot < names.at + names.len; slot += SLOT) {
        datum key = {(const char *)slot + 1, slot[0]};
        datum found = sdbm_fetch(files, key);
        all &= found.dptr != NULL && found.dsize == sizeof value && memcmp(found.dptr, value, sizeof value) == 0;
    }
    for (datum key = sdbm_firstkey(files); key.dptr != NULL; key = sdbm_nextkey(files))
        keys++;
    sdbm_close(files);
    return all && keys == names.len / SLOT;
}

static double time_stored(const struct storing *in, struct bytes names)
{
    in->empty();
    double start = now();
    bool done = in->store(names);
    double time = now() - start;
    if (!done || !in->holds(names)) {
        fprintf(stderr, "the names that were stored are not those that are there\n");
        exit(1);
    }
    return time;
}

/* nanoseconds for a store. What opening and closing takes, with no names, is taken off. */
static double each_store(const struct storing *in, struct bytes names)
{
    struct bytes none = {names.at, 0};
    size_t count = names.len / SLOT, runs = (STORES + count - 1) / count;
    double time = 0;
    for (size_t r = 0; r < runs; r++)
        time += time_stored(in, names) - time_stored(in, none);
    return time / (double)(runs * count);
}

static bool store_met = true;

/* The row of stores: ours on a slotted image, directly and through a cache, and the sdbm's last, in turns. */
static void store_row(struct bytes names)
{
    static const struct storing in[3] = {
        {empty_image, store_slotted, image_holds},
        {empty_image, store_cached, image_holds},
        {remove_files, store_files, files_hold},
    };
    static double times[3][REPEATS];
    double it[3];
    for (int r = -1; r < REPEATS; r++)
        for (int i = 0; i < 3; i++) {
            double time = each_store(&in[i], names);
            if (r >= 0)
                times[i][r] = time;
        }
    for (int i = 0; i < 3; i++)
        it[i] = median(times[i]);
    printf("%-22s %8s %8.1f %8s %8.1f %8.1f\n", "store", "-", it[0], "-", it[1], it[2]);
    if (it[0] > it[2] || it[1] > it[2])
        store_met = false;
}

int main(int argc, char **argv)
{
    static run *const fetches[5] = {fetch_flat, fetch_slotted, fetch_cached_flat, fetch_cached_slotted, sdbm_fetches};
    static run *const pairs[5] = {walk_flat, walk_slotted, walk_cached_flat, walk_cached_slotted, sdbm_pairs};
    static run *const keys[5] = {walk_flat, walk_slotted, walk_cached_flat, walk_cached_slotted, sdbm_keys};
    if (argc < 4) {
        fprintf(stderr, "usage: %s LIBRARY FOLDER COUNT..\n", argv[0]);
        return 2;
    }
    load_sdbm(argv[1]);
    for (int i = 3; i < argc; i++) {
        unsigned count = (unsigned)atoi(argv[i]);
        char path[4096];
        struct bytes dir = read_file(argv[2], count, "dir"), pag = read_file(argv[2], count, "pag");
        flat = flat_image(dir, pag);
        slotted = slotted_image(flat);
        hits = read_file(argv[2], count, "hits");
        misses = read_file(argv[2], count, "misses");
        snprintf(path, sizeof path, "%s/%u", argv[2], count);
        db = sdbm_open(path, O_RDONLY, 0);
        if (db == NULL) {
            perror(path);
            return 1;
        }
        printf("\n%u names, %zu pages in the file\n", count, pag.len / PAGE);
        printf("%-22s %8s %8s %8s %8s %8s\n", "", "flat", "slotted", "c. flat", "c. slot.", "sdbm");
        row("fetch, hits", fetches, hits, count, count, true);
        row("fetch, misses", fetches, misses, count, 0, true);
        row("walk, pairs", pairs, hits, count, count, false);
        row("walk, sdbm's by keys", keys, hits, count, count, false);
        sdbm_close(db);
        snprintf(new_files, sizeof new_files, "%s/stored", argv[2]);
        image.len = (pag.len / PAGE + SPARE) * RECORD;
        image.at = calloc(1, image.len);
        store_row(hits);
        remove_files();
        free(image.at);
        free(dir.at);
        free(pag.at);
        free(flat.at);
        free(slotted.at);
        free(hits.at);
        free(misses.at);
    }
    printf("\naim, a fetch in no more time than the real sdbm's, on each of the four stacks: %s\n", met ? "met" : "not met");
    printf("aim, a store in no more time than the real sdbm's, directly and through a cache: %s\n", store_met ? "met" : "not met");
    return 0;
}
