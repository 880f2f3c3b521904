/* console: opens a season, makes moves, and prints the figures of the screen after each.
 *
 *     console [FILE] [set GAME SLOT | exchange GAME GAME]...
 *
 * FILE is a season followed by its sheet (default: examples/season-a.bin). Without moves on the command line they are read from
 * standard input, one a line; empty lines and what follows a '#' are skipped. A refused move is shown and changes nothing.
 */
#include <errno.h>
#include <inttypes.h>
#include <stdio.h>
#include <stdlib.h>
#include <string.h>

#include "season_checker.h"

static const char *const verdicts[] = { "feasible", "a game is unplaced", "a hard constraint is broken" };

/* Memory for some items, all 0; null where there are none, which is allowed. */
static void *lend(size_t items, size_t size)
{
    void *p = items > 0 ? calloc(items, size) : NULL;
    if (p == NULL && items > 0) {
        fprintf(stderr, "console: out of memory\n");
        exit(2);
    }
    return p;
}

/* Reads a season and its sheet and makes the buffers that they need. The season's memory is handed back to be freed. */
static season_buffers load(const char *name, uint8_t **bytes)
{
    enum { MOST = SEASON_MAX_BYTES + SEASON_MAX_GAMES + 1 };
    season_buffers lent;
    size_t length;
    FILE *file = fopen(name, "rb");
    if (file == NULL) {
        fprintf(stderr, "console: %s: %s\n", name, strerror(errno));
        exit(2);
    }
    *bytes = lend(MOST, 1);
    length = fread(*bytes, 1, MOST, file);
    if (ferror(file)) {
        fprintf(stderr, "console: %s: %s\n", name, strerror(errno));
        exit(2);
    }
    fclose(file);

    lent.season = *bytes;
    lent.season_len = season_end(*bytes, length);
    lent.sheet_len = length - lent.season_len;
    lent.ledger_len = season_ledger_items(lent.season, lent.season_len);
    lent.tally_len = season_tally_items(lent.season, lent.season_len);
    lent.sheet = lend(lent.sheet_len, sizeof *lent.sheet);
    lent.ledger = lend(lent.ledger_len, sizeof *lent.ledger);
    lent.tally = lend(lent.tally_len, sizeof *lent.tally);
    if (lent.sheet_len > 0) {
        memcpy(lent.sheet, *bytes + lent.season_len, lent.sheet_len);
    }
    return lent;
}

/* Verdict and totals with their changes, then the penalties above 0. */
static void show(const season_buffers *lent, season_reply reply)
{
    size_t c, constraints = lent->tally_len - 2;
    if (reply.declined) {
        printf("  refused %u: %s\n", reply.number, season_refusal_text(reply.number));
        return;
    }
    printf("  verdict %u (%s), infeasibility %" PRIu64 " (%+" PRId64 "), objective %" PRIu64 " (%+" PRId64 ")\n", reply.number,
           verdicts[reply.number], lent->tally[constraints], reply.infeasibility, lent->tally[constraints + 1], reply.objective);
    for (c = 0; c < constraints; c++) {
        const uint8_t *head = season_head(lent->season, lent->season_len, c);
        if (lent->tally[c] > 0) {
            printf("  constraint %zu %s %s: penalty %" PRIu64 "\n", c, head[2] ? "hard" : "soft",
                   season_kind_row_of(head[0], head[1])->name, lent->tally[c]);
        }
    }
}

/* A number that 64 bits hold; whether it exists on this season is for the checker to say. */
static int number(const char *word, uint64_t *value)
{
    char *end;
    if (word == NULL || word[0] < '0' || word[0] > '9') {
        return 0;
    }
    errno = 0;
    *value = strtoull(word, &end, 10);
    return errno == 0 && *end == '\0';
}

/* Makes one move and shows the figures; 0 if it is not a move. */
static int move(const season_buffers *lent, const char *what, const char *first, const char *second)
{
    uint64_t a, b;
    season_reply reply;
    if (!number(first, &a) || !number(second, &b)) {
        return 0;
    }
    if (strcmp(what, "set") == 0) {
        reply = season_buffers_set(lent, a, b);
    } else if (strcmp(what, "exchange") == 0) {
        reply = season_buffers_exchange(lent, a, b);
    } else {
        return 0;
    }
    printf("%s %" PRIu64 " %" PRIu64 "\n", what, a, b);
    show(lent, reply);
    return 1;
}

/* Moves from standard input. */
static int move_lines(const season_buffers *lent)
{
    char line[256];
    unsigned long at = 0;
    while (fgets(line, sizeof line, stdin) != NULL) {
        const char *what, *first, *second;
        at++;
        line[strcspn(line, "#\n")] = '\0';
        what = strtok(line, " \t\r");
        if (what == NULL) {
            continue;
        }
        first = strtok(NULL, " \t\r");
        second = strtok(NULL, " \t\r");
        if (strtok(NULL, " \t\r") != NULL || !move(lent, what, first, second)) {
            fprintf(stderr, "console: line %lu: a move is 'set GAME SLOT' or 'exchange GAME GAME'\n", at);
            return 0;
        }
    }
    return 1;
}

int main(int argc, char **argv)
{
    int at = 1, good = 1;
    const char *name = "examples/season-a.bin";
    uint8_t *bytes;
    season_buffers lent;
    season_reply reply;
    if (argc > 1 && strcmp(argv[1], "set") != 0 && strcmp(argv[1], "exchange") != 0) {
        name = argv[at++];
    }
    lent = load(name, &bytes);
    printf("open %s\n", name);
    reply = season_buffers_open(&lent);
    show(&lent, reply);
    if (reply.declined) {
        good = 0;
    } else if (at == argc) {
        good = move_lines(&lent);
    } else {
        for (; good && at < argc; at += 3) {
            good = at + 2 < argc && move(&lent, argv[at], argv[at + 1], argv[at + 2]);
            if (!good) {
                fprintf(stderr, "console: a move is 'set GAME SLOT' or 'exchange GAME GAME'\n");
            }
        }
    }
    free(bytes);
    free(lent.sheet);
    free(lent.ledger);
    free(lent.tally);
    return good ? 0 : 1;
}
