/* season_explain.h, as C and as C++: each refusal once by hand on season A, then every single move of a season and every damaged byte of
 * season A, where what is named has to be at fault by the words of the refusal.
 *
 *     explain SEASON-A [FILE]...      each FILE is a season followed by its sheet
 */
#include "season_explain.h"

#include <stdio.h>
#include <stdlib.h>
#include <string.h>

enum { MOST = SEASON_MAX_BYTES + SEASON_MAX_GAMES, MOST_ENTRIES = 1 << 17 };

static int failed = 0;

#define CHECK(fact)                                           \
    do {                                                      \
        if (!(fact)) {                                        \
            printf("line %d: not so: %s\n", __LINE__, #fact); \
            failed = 1;                                       \
        }                                                     \
    } while (0)

static uint8_t bytes[MOST + 1], sheet[SEASON_MAX_GAMES + 1];
static uint32_t ledger[MOST_ENTRIES];
static uint64_t tally[SEASON_MAX_CONSTRAINTS + 3];
static size_t length, end, games, entries, words;

static void load(const char *name)
{
    FILE *file = fopen(name, "rb");
    if (file == NULL) {
        printf("%s cannot be read\n", name);
        exit(1);
    }
    length = fread(bytes, 1, MOST + 1, file);
    fclose(file);
    end = season_end(bytes, length);
    games = length - end;
    entries = season_ledger_items(bytes, end);
    words = bytes[4] + 256 * (size_t)bytes[5] + 2;
    memcpy(sheet, bytes + end, games);
}

static season_fault open_it(size_t season_len, size_t sheet_len, size_t ledger_len, size_t tally_len)
{
    season_reply reply = season_open(bytes, season_len, sheet, sheet_len, ledger, ledger_len, tally, tally_len);
    return season_explain_refusal(reply, SEASON_CALL_OPEN, bytes, season_len, sheet, sheet_len, ledger_len, tally_len, 0, 0);
}

static season_fault set_it(uint64_t game, uint64_t slot)
{
    season_reply reply = season_set(bytes, end, sheet, games, ledger, entries, tally, words, game, slot);
    return season_explain_refusal(reply, SEASON_CALL_SET, bytes, end, sheet, games, entries, words, game, slot);
}

static season_fault exchange_it(uint64_t game, uint64_t other)
{
    season_reply reply = season_exchange(bytes, end, sheet, games, ledger, entries, tally, words, game, other);
    return season_explain_refusal(reply, SEASON_CALL_EXCHANGE, bytes, end, sheet, games, entries, words, game, other);
}

/* Whether a game has a team. */
static bool plays(uint64_t game, uint64_t team)
{
    return bytes[6 + game] == team || bytes[6 + games + game] == team;
}

/* Season A: games (0,1) (2,3) (1,2) (3,0) (0,2) (3,1) in slots 1 1 2 2 3 3. */
static void by_hand(void)
{
    season_fault fault = open_it(end, games, entries, words);
    CHECK(fault.refusal == 0 && fault.game == SEASON_NOTHING && fault.buffer == SEASON_BUFFER_NONE);
    fault = open_it(5, games, entries, words);
    CHECK(fault.refusal == 1 && fault.buffer == SEASON_BUFFER_SEASON && fault.items == 5 && fault.needed == 6);
    fault = open_it(100, games, entries, words);
    CHECK(fault.refusal == 3 && fault.buffer == SEASON_BUFFER_SEASON && fault.items == 100 && fault.needed == 114);
    fault = open_it(end, 5, entries, words);
    CHECK(fault.refusal == 7 && fault.buffer == SEASON_BUFFER_SHEET && fault.items == 5 && fault.needed == 6);
    fault = open_it(end, games, 13, words);
    CHECK(fault.refusal == 7 && fault.buffer == SEASON_BUFFER_LEDGER && fault.items == 13 && fault.needed == 12);
    fault = open_it(end, games, entries, 5);
    CHECK(fault.refusal == 7 && fault.buffer == SEASON_BUFFER_TALLY && fault.items == 5 && fault.needed == 6);

    bytes[0] = 33;
    fault = open_it(end, games, entries, words);
    CHECK(fault.refusal == 2 && fault.byte == 0 && fault.items == 33);
    bytes[0] = 4;
    bytes[1] = 65;
    fault = open_it(end, games, entries, words);
    CHECK(fault.refusal == 2 && fault.byte == 1 && fault.items == 65);
    bytes[1] = 3;
    bytes[3] = 5;
    fault = open_it(end, games, entries, words);
    CHECK(fault.refusal == 2 && fault.byte == 2 && fault.items == 6 + 5 * 256);
    bytes[3] = 0;
    bytes[5] = 8;
    fault = open_it(end, games, entries, words);
    CHECK(fault.refusal == 2 && fault.byte == 4 && fault.items == 4 + 8 * 256);
    bytes[5] = 0;

    bytes[8] = 9;
    fault = open_it(end, games, entries, words);
    CHECK(fault.refusal == 4 && fault.game == 2 && fault.team == 9 && fault.other == SEASON_NOTHING);
    bytes[8] = 2;
    fault = open_it(end, games, entries, words);
    CHECK(fault.refusal == 4 && fault.game == 2 && fault.team == 2);
    bytes[8] = 1;
    bytes[25] = 1;  /* w of constraint 0, a CA1 */
    fault = open_it(end, games, entries, words);
    CHECK(fault.refusal == 5 && fault.constraint == 0);
    bytes[25] = 0;
    bytes[18 + 3 * 8] = 99;  /* the kind of constraint 3 */
    fault = open_it(end, games, entries, words);
    CHECK(fault.refusal == 5 && fault.constraint == 3);
    bytes[18 + 3 * 8] = 13;

    /* Constraint 1, a BR2 of all teams, as a BR4: with mode 3, with kmax 1, and as it has to be, with a deviation for each of 4 teams. */
    bytes[18 + 8] = SEASON_KIND_BR4;
    fault = open_it(end, games, entries, words);
    CHECK(fault.refusal == 5 && fault.constraint == 1);
    bytes[18 + 9] = SEASON_MODE_AWAY;
    fault = open_it(end, games, entries, words);
    CHECK(fault.refusal == 5 && fault.constraint == 1);
    bytes[18 + 14] = 0;
    fault = open_it(end, games, entries, words);
    CHECK(fault.refusal == 7 && fault.buffer == SEASON_BUFFER_LEDGER && fault.items == 12 && fault.needed == 15);
    bytes[18 + 8] = SEASON_KIND_BR2;
    bytes[18 + 9] = SEASON_MODE_ANY;
    bytes[18 + 14] = 1;

    sheet[4] = 4;
    fault = open_it(end, games, entries, words);
    CHECK(fault.refusal == 8 && fault.game == 4 && fault.slot == 4 && fault.team == SEASON_NOTHING);
    sheet[4] = 3;
    sheet[5] = 1;
    fault = open_it(end, games, entries, words);
    CHECK(fault.refusal == 8 && fault.game == 5 && fault.other == 0 && fault.team == 1 && fault.opponent == 0 && fault.slot == 1);
    sheet[5] = 3;

    CHECK(open_it(end, games, entries, words).refusal == 0);
    fault = set_it(6, 1);
    CHECK(fault.refusal == 9 && fault.game == 6);
    fault = set_it(UINT64_MAX - 1, 1);
    CHECK(fault.refusal == 9 && fault.game == UINT64_MAX - 1);
    fault = exchange_it(0, 7);
    CHECK(fault.refusal == 9 && fault.game == 7);
    fault = set_it(0, 4);
    CHECK(fault.refusal == 10 && fault.slot == 4);
    fault = exchange_it(3, 3);
    CHECK(fault.refusal == 11 && fault.game == 3);
    fault = set_it(0, 2);  /* team 1 plays team 2 there, in game 2 */
    CHECK(fault.refusal == 13 && fault.game == 0 && fault.other == 2 && fault.team == 1 && fault.opponent == 2 && fault.slot == 2);
    fault = exchange_it(0, 2);  /* game 0 into slot 2, where team 0 plays team 3 in game 3 */
    CHECK(fault.refusal == 13 && fault.game == 0 && fault.other == 3 && fault.team == 0 && fault.opponent == 3 && fault.slot == 2);
    CHECK(set_it(4, 0).refusal == 0);
    fault = exchange_it(4, 5);
    CHECK(fault.refusal == 12 && fault.game == 4);
    fault = exchange_it(5, 4);
    CHECK(fault.refusal == 12 && fault.game == 4);
    CHECK(set_it(4, 3).refusal == 0);
}

/* Nine games of one pair. */
static void too_many_meetings(void)
{
    season_fault fault;
    static const uint8_t season[] = { 3, 9, 10, 0, 0, 0, 1, 0, 1, 0, 1, 0, 1, 0, 1, 0, 2, 1, 0, 1, 0, 1, 0, 1, 0, 1 };
    memcpy(bytes, season, sizeof season);
    memset(sheet, 0, 10);
    fault = open_it(sizeof season, 10, 0, 2);
    CHECK(fault.refusal == 4 && fault.game == 9 && fault.other == 1);
}

/* A reply that belongs to another call: any answer will do, but nothing is read outside the buffers (run under a memory checker). */
static void other_replies(void)
{
    unsigned number, call;
    for (number = 0; number < 16; number++) {
        for (call = SEASON_CALL_OPEN; call <= SEASON_CALL_EXCHANGE; call++) {
            season_reply reply = { true, 0, 0, 0 };
            size_t season_len, sheet_len;
            reply.number = (uint8_t)number;
            for (season_len = 0; season_len <= end; season_len += 19) {
                for (sheet_len = 0; sheet_len <= games; sheet_len++) {
                    /* Buffers of exactly these lengths, so that a memory checker sees the ends. */
                    uint8_t *season = (uint8_t *)malloc(season_len + 1), *lent = (uint8_t *)malloc(sheet_len + 1);
                    season_fault fault;
                    memcpy(season + 1, bytes, season_len);
                    memcpy(lent + 1, sheet, sheet_len);
                    fault = season_explain_refusal(reply, (enum season_call)call, season + 1, season_len, lent + 1, sheet_len, entries,
                                                   words, games - 1, number % 2 == 0 ? 2 : UINT64_MAX);
                    CHECK(fault.refusal == number);
                    free(season);
                    free(lent);
                }
            }
        }
    }
}

/* A refused move: what is named is at fault. */
static void check_move(season_fault fault, uint64_t game, uint64_t other, uint64_t slot)
{
    if (fault.refusal == SEASON_REFUSED_CLASH) {
        const uint64_t to = other == SEASON_NOTHING ? slot : fault.game == game ? sheet[other] : sheet[game];
        CHECK(fault.game == game || fault.game == other);
        CHECK(fault.other < games && fault.other != game && fault.other != other);
        CHECK(fault.slot == to && sheet[fault.other] == to && to > 0);
        CHECK(plays(fault.game, fault.team) && plays(fault.other, fault.team));
        CHECK(plays(fault.other, fault.opponent) && fault.opponent != fault.team);
    } else if (fault.refusal == SEASON_REFUSED_UNPLACED) {
        CHECK((fault.game == game || fault.game == other) && sheet[fault.game] == 0);
    } else {
        CHECK(fault.refusal == SEASON_REFUSED_SAME && game == other && fault.game == game);
    }
}

/* Every set of a season, and every exchange of its first games with any other. Accepted ones are taken back. */
static void every_move(const char *name)
{
    size_t g, k, refused = 0, slots = bytes[1];
    season_fault fault = open_it(end, games, entries, words);
    CHECK(fault.refusal == 0);
    for (g = 0; g < games && !failed; g++) {
        const uint8_t had = sheet[g];
        for (k = 0; k <= slots; k++) {
            fault = set_it(g, k);
            if (fault.refusal == 0) {
                CHECK(set_it(g, had).refusal == 0);
            } else {
                refused++;
                check_move(fault, g, SEASON_NOTHING, k);
            }
        }
    }
    for (g = 0; g < games && g < 20 && !failed; g++) {
        for (k = 0; k < games; k++) {
            fault = exchange_it(g, k);
            if (fault.refusal == 0) {
                CHECK(exchange_it(g, k).refusal == 0);
            } else {
                refused++;
                check_move(fault, g, k, 0);
            }
        }
    }
    printf("%s: %lu refused moves\n", name, (unsigned long)refused);
}

/* Every byte of a season and its sheet set to several values: what a refusal needs is named. */
static void every_byte(void)
{
    static const uint8_t values[] = { 0, 1, 2, 4, 7, 33, 65, 255 };
    size_t at, v, refused = 0;
    for (at = 0; at < end + games; at++) {
        uint8_t *place = at < end ? bytes + at : sheet + (at - end);
        const uint8_t kept = *place;
        for (v = 0; v < sizeof values; v++) {
            season_fault fault;
            *place = values[v];
            fault = open_it(end, games, season_ledger_items(bytes, end), words);
            refused += fault.refusal > 0;
            CHECK(fault.refusal == 0 || fault.refusal == 2 || fault.refusal == 3 || fault.refusal == 4 || fault.refusal == 5 ||
                  fault.refusal == 7 || fault.refusal == 8);
            CHECK(fault.refusal != 2 || (fault.byte < 6 && fault.items != SEASON_NOTHING));
            CHECK((fault.refusal != 3 && fault.refusal != 7) || fault.items != fault.needed);
            CHECK(fault.refusal != 4 || (fault.game < games && (fault.team >= bytes[0] || plays(fault.game, fault.team))));
            /* One byte is wrong, so the constraint is the one that it belongs to, unless the byte is a size. */
            CHECK(fault.refusal != 5 || fault.constraint < words - 2);
            CHECK(fault.refusal != 5 || at < 6 || at >= 6 + 2 * games + 8 * (words - 2) || fault.constraint == (at - 6 - 2 * games) / 8);
            CHECK(fault.refusal != 5 || at < 6 + 2 * games + 8 * (words - 2) ||
                  fault.constraint == (at - 6 - 2 * games - 8 * (words - 2)) / 16);
            CHECK(fault.refusal != 8 || fault.game < games);
        }
        *place = kept;
    }
    printf("damaged bytes: %lu refusals\n", (unsigned long)refused);
}

int main(int argc, char **argv)
{
    int k;
    if (argc < 2) {
        printf("usage: explain SEASON-A [FILE]...\n");
        return 2;
    }
    load(argv[1]);
    by_hand();
    every_byte();
    other_replies();
    for (k = 1; k < argc; k++) {
        load(argv[k]);
        every_move(argv[k]);
    }
    too_many_meetings();
    return failed;
}
