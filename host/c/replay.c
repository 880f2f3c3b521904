/* replay FILE end|start|heap [CASES]: makes the calls that the program `record` wrote, and compares replies and buffers.
 *
 * end: each buffer ends where a page ends, and the next page cannot be read. start: each begins where a page begins, behind a page
 * that cannot be read. In both the season is never writable, the sheet is not while open runs, and nothing is during a call that has
 * to be refused. heap: each buffer is a block of its own of the exact length, for a memory checker; ledger and tally are left unset
 * before an opening. A buffer without items is lent as null. The helpers of the header look at the same season, and give the lengths
 * of the buffers where the first call opens them.
 */
#define _DEFAULT_SOURCE
#include <inttypes.h>
#include <signal.h>
#include <stdio.h>
#include <stdlib.h>
#include <string.h>
#include <sys/mman.h>
#include <unistd.h>

#include "season_checker.h"

enum where { END, START, HEAP };

/* A buffer and the mapping around it. */
struct buffer {
    void *items;
    uint8_t *map;
    size_t pages;
    size_t bytes;
};

static size_t page;
static volatile unsigned long at_case, at_call;

static void die(const char *what)
{
    fprintf(stderr, "replay: case %lu, call %lu: %s (record --show %lu prints the case)\n", at_case, at_call, what, at_case);
    exit(1);
}

static void on_fault(int signal)
{
    char text[160];
    int length = snprintf(text, sizeof text,
                          "replay: case %lu, call %lu: signal %d: a read outside the buffers, or a write outside or into one that is "
                          "not to be written\n",
                          at_case, at_call, signal);
    if (write(2, text, (size_t)length) < 0) {
        _exit(2);
    }
    _exit(1);
}

static void *checked(void *p)
{
    if (p == NULL || p == MAP_FAILED) {
        die("no memory");
    }
    return p;
}

static struct buffer make(size_t bytes, enum where where)
{
    struct buffer b;
    b.bytes = bytes;
    b.map = NULL;
    b.pages = 0;
    b.items = NULL;
    if (bytes == 0) {
        return b;
    }
    if (where == HEAP) {
        b.items = checked(malloc(bytes));
        return b;
    }
    b.pages = (bytes + page - 1) / page + 1;
    b.map = checked(mmap(NULL, b.pages * page, PROT_READ | PROT_WRITE, MAP_PRIVATE | MAP_ANONYMOUS, -1, 0));
    if (mprotect(where == END ? b.map + (b.pages - 1) * page : b.map, page, PROT_NONE) != 0) {
        die("mprotect");
    }
    b.items = where == END ? b.map + (b.pages - 1) * page - bytes : b.map + page;
    return b;
}

static void drop(struct buffer *b)
{
    if (b->map == NULL) {
        free(b->items);
    } else {
        munmap(b->map, b->pages * page);
    }
}

/* Allows or forbids writing to a buffer in pages. */
static void allow(const struct buffer *b, enum where where, int writing)
{
    if (b->map != NULL && b->pages > 1) {
        uint8_t *first = where == END ? b->map : b->map + page;
        if (mprotect(first, (b->pages - 1) * page, writing ? PROT_READ | PROT_WRITE : PROT_READ) != 0) {
            die("mprotect");
        }
    }
}

/* Reading the file. */
static const uint8_t *from, *from_end;

static void take(void *to, size_t bytes)
{
    if ((size_t)(from_end - from) < bytes) {
        die("the file is too short");
    }
    if (to != NULL && bytes > 0) {
        memcpy(to, from, bytes);
    }
    from += bytes;
}

static uint32_t take32(void)
{
    uint32_t value;
    take(&value, sizeof value);
    return value;
}

static uint64_t take64(void)
{
    uint64_t value;
    take(&value, sizeof value);
    return value;
}

static uint8_t take8(void)
{
    uint8_t value;
    take(&value, sizeof value);
    return value;
}

static uint64_t mix(uint64_t hash, uint64_t item)
{
    return (hash ^ item) * UINT64_C(0x100000001b3);
}

/* The helpers read nothing outside the season; for one that opens they give the lengths of the buffers. */
static void ask_helpers(const uint8_t *season, size_t season_len, int opens, size_t sheet_len, size_t ledger_len, size_t tally_len)
{
    size_t c, first = 0, end = season_end(season, season_len), items = season_ledger_items(season, season_len);
    size_t sheet_items = season_sheet_items(season, season_len), tally_items = season_tally_items(season, season_len);
    for (c = 0; season_head(season, season_len, c) != NULL; c++) {
        if (c % 64 == 0 && season_ledger_first(season, season_len, c) != first) {
            die("season_ledger_first");
        }
        first += season_deviations(season, season_len, c);
    }
    if (opens && (end != season_len || first != ledger_len || items != ledger_len || sheet_items != sheet_len || tally_items != tally_len)) {
        die("the helpers give other lengths");
    }
}

static unsigned long replay_case(enum where where)
{
    size_t season_len = take32(), sheet_len = take32(), ledger_len = take32(), tally_len = take32();
    unsigned long calls = take32();
    struct buffer season_buffer = make(season_len, where), sheet_buffer = make(sheet_len, where);
    struct buffer ledger_buffer = make(4 * ledger_len, where), tally_buffer = make(8 * tally_len, where);
    const uint8_t *season = season_buffer.items;
    uint8_t *sheet = sheet_buffer.items;
    uint32_t *ledger = ledger_buffer.items;
    uint64_t *tally = tally_buffer.items;
    const uint8_t *season_copy = from;
    const uint8_t *first_call = from + season_len + sheet_len + 4 * ledger_len + 8 * tally_len;
    int unset = where == HEAP && calls > 0 && first_call[0] == 0 && first_call[17] == 0;

    take(season_buffer.items, season_len);
    take(sheet, sheet_len);
    take(unset ? NULL : ledger, 4 * ledger_len);
    take(unset ? NULL : tally, 8 * tally_len);
    allow(&season_buffer, where, 0);
    at_call = 0;
    ask_helpers(season, season_len, calls > 0 && first_call[0] == 0 && first_call[17] == 0, sheet_len, ledger_len, tally_len);
    for (at_call = 0; at_call < calls; at_call++) {
        uint8_t what = take8();
        uint64_t a = take64(), b = take64();
        uint8_t declined = take8(), number = take8();
        int64_t infeasibility = (int64_t)take64(), objective = (int64_t)take64();
        uint64_t hash = take64(), found = UINT64_C(0xcbf29ce484222325);
        season_reply reply;
        size_t k;
        allow(&sheet_buffer, where, !declined && what != 0);
        allow(&ledger_buffer, where, !declined);
        allow(&tally_buffer, where, !declined);
        switch (what) {
        case 0:
            reply = season_open(season, season_len, sheet, sheet_len, ledger, ledger_len, tally, tally_len);
            break;
        case 1:
            reply = season_set(season, season_len, sheet, sheet_len, ledger, ledger_len, tally, tally_len, a, b);
            break;
        default:
            reply = season_exchange(season, season_len, sheet, sheet_len, ledger, ledger_len, tally, tally_len, a, b);
        }
        if (reply.declined != (declined != 0) || reply.number != number || reply.infeasibility != infeasibility ||
            reply.objective != objective) {
            fprintf(stderr, "replay: expected declined %d, number %d, changes %" PRId64 " %" PRId64 "; got %d, %d, %" PRId64 " %" PRId64 "\n",
                    declined, number, infeasibility, objective, reply.declined, reply.number, reply.infeasibility, reply.objective);
            die("another reply");
        }
        for (k = 0; k < sheet_len; k++) {
            found = mix(found, sheet[k]);
        }
        for (k = 0; k < ledger_len; k++) {
            found = mix(found, ledger[k]);
        }
        for (k = 0; k < tally_len; k++) {
            found = mix(found, tally[k]);
        }
        if (found != hash) {
            die("sheet, ledger or tally differs");
        }
        if (season_len > 0 && memcmp(season, season_copy, season_len) != 0) {
            die("the season was written");
        }
    }
    drop(&season_buffer);
    drop(&sheet_buffer);
    drop(&ledger_buffer);
    drop(&tally_buffer);
    return calls;
}

int main(int argc, char **argv)
{
    static const char *const names[] = { "end", "start", "heap" };
    unsigned where = 0;
    unsigned long cases, calls = 0, most = 0;
    long size;
    uint8_t *bytes;
    FILE *file;
    while (argc >= 3 && where < 3 && strcmp(argv[2], names[where]) != 0) {
        where++;
    }
    if (argc < 3 || argc > 4 || where == 3 || (file = fopen(argv[1], "rb")) == NULL) {
        fprintf(stderr, "usage: replay FILE end|start|heap [CASES]\n");
        return 2;
    }
    if (argc == 4) {
        most = strtoul(argv[3], NULL, 10);
    }
    page = (size_t)sysconf(_SC_PAGESIZE);
    fseek(file, 0, SEEK_END);
    size = ftell(file);
    rewind(file);
    bytes = checked(malloc((size_t)size + 1));
    if (size < 0 || fread(bytes, 1, (size_t)size, file) != (size_t)size) {
        die("the file cannot be read");
    }
    fclose(file);
    from = bytes;
    from_end = bytes + size;
    if (where != HEAP) {
        signal(SIGSEGV, on_fault);
        signal(SIGBUS, on_fault);
    }
    cases = take32();
    if (most > 0 && most < cases) {
        cases = most;
    }
    for (at_case = 0; at_case < cases; at_case++) {
        calls += replay_case((enum where)where);
    }
    printf("replay %s: %lu cases, %lu calls\n", names[where], cases, calls);
    free(bytes);
    return 0;
}
