/* The header by itself, as C and as C++: layout of the structs, constants, helpers, null at length 0, and rounds of calls. */
#include "season_checker.h"

#include <stdio.h>
#include <string.h>

#define CHECK(fact)                                        \
    do {                                                   \
        if (!(fact)) {                                     \
            printf("line %d: not so: %s\n", __LINE__, #fact); \
            failed = 1;                                    \
        }                                                  \
    } while (0)

/* CA1 for team 0 and CA4 for each of two slots. */
static const uint8_t season[] = {
    3, 2, 2, 0, 2, 0,
    0, 1,
    1, 2,
    11, 3, 1, 1, 4, 0, 0, 0,
    14, 6, 0, 1, 1, 0, 0, 0,
    1, 0, 0, 0, 0, 0, 0, 0, 3, 0, 0, 0, 0, 0, 0, 0,
    7, 0, 0, 0, 7, 0, 0, 0, 3, 0, 0, 0, 0, 0, 0, 0,
    1, 2 /* the sheet */
};

/* Team 0 is away in slots 1 and 3: a trip. BR4 asks teams 0 and 1 for one each, CA5 team 0 for no game against team 1 on it. */
static const uint8_t trips[] = {
    3, 4, 2, 0, 2, 0,
    1, 2,
    0, 0,
    34, 2, 1, 1, 5, 1, 0, 0,
    15, 2, 0, 1, 3, 0, 0, 0,
    3, 0, 0, 0, 0, 0, 0, 0, 5, 0, 0, 0, 0, 0, 0, 0,
    1, 0, 0, 0, 2, 0, 0, 0, 15, 0, 0, 0, 0, 0, 0, 0,
    1, 3 /* the sheet */
};

/* SEASON_CHECKER_VERSION as a number. */
static int version(void)
{
    int major = 0, minor = 0, patch = 0;
    return sscanf(SEASON_CHECKER_VERSION, "%d.%d.%d", &major, &minor, &patch) == 3 ? 10000 * major + 100 * minor + patch : -1;
}

int main(void)
{
    int failed = 0;
    uint8_t sheet[2];
    uint32_t ledger[3];
    uint64_t tally[4];
    season_reply reply;
    season_buffers lent;
    size_t end = season_end(season, sizeof season);
    const uint8_t none[6] = { 2, 1, 0, 0, 0, 0 };
    uint8_t unknown[sizeof season];

    CHECK(sizeof(season_reply) == 24);
    CHECK(offsetof(season_reply, declined) == 0);
    CHECK(offsetof(season_reply, number) == 1);
    CHECK(offsetof(season_reply, infeasibility) == 8);
    CHECK(offsetof(season_reply, objective) == 16);

    CHECK(end == sizeof season - 2);
    CHECK(season_end(season, 5) == 5);
    CHECK(season_end(season, 20) == 20);
    CHECK(season_ledger_items(season, end) == 3);
    CHECK(season_ledger_items(season, end - 1) == 0);
    CHECK(season_ledger_items(season, 0) == 0);
    CHECK(season_sheet_items(season, end) == 2);
    CHECK(season_tally_items(season, end) == 4);
    CHECK(season_head(season, end, 1) == season + 18 && season_body(season, end, 1) == season + 42);
    CHECK(season_head(season, end, 2) == NULL && season_body(season, end - 1, 0) == NULL);
    CHECK(season_deviations(season, end, 0) == 1 && season_deviations(season, end, 1) == 2 && season_deviations(season, end, 2) == 0);
    CHECK(season_ledger_first(season, end, 0) == 0 && season_ledger_first(season, end, 1) == 1 && season_ledger_first(season, end, 2) == 3);
    CHECK(season_end(NULL, 0) == 0 && season_ledger_items(NULL, 0) == 0 && season_tally_items(NULL, 0) == 2);

    /* A kind that is not known has no row, no deviation, and its season no E. */
    memcpy(unknown, season, sizeof season);
    unknown[10] = 10;
    CHECK(season_kind_row_of(10, 1) == NULL && season_kind_row_of(11, 4) == NULL && season_kind_row_of(11, 0) == NULL);
    CHECK(season_deviations(unknown, end, 0) == 0 && season_deviations(unknown, end, 1) == 2);
    CHECK(season_ledger_items(unknown, end) == 0);

    CHECK(strcmp(season_kind_row_of(SEASON_KIND_CA4, SEASON_MODE_EACH_ANY)->name, "CA4") == 0);
    CHECK(season_kind_row_of(SEASON_KIND_CA4, SEASON_MODE_ANY)->per == SEASON_PER_CONSTRAINT);
    CHECK(season_kind_row_of(SEASON_KIND_CA4, SEASON_MODE_EACH_HOME)->per == SEASON_PER_SLOT);
    CHECK(season_kind_row_of(SEASON_KIND_BR1, SEASON_MODE_EXACTLY_AWAY)->per == SEASON_PER_TEAM);
    CHECK(season_kind_row_of(SEASON_KIND_SE1, SEASON_MODE_HOME)->per == SEASON_PER_PAIR);
    CHECK(SEASON_KIND_CA5 == 15 && SEASON_KIND_BR4 == 34);
    CHECK(season_kind_row_of(SEASON_KIND_CA5, SEASON_MODE_AWAY)->per == SEASON_PER_TEAM);
    CHECK(season_kind_row_of(SEASON_KIND_BR4, SEASON_MODE_AWAY)->per == SEASON_PER_TEAM);
    CHECK(strcmp(season_kind_row_of(SEASON_KIND_CA5, SEASON_MODE_AWAY)->name, "CA5") == 0);
    CHECK(strcmp(season_kind_row_of(SEASON_KIND_BR4, SEASON_MODE_AWAY)->name, "BR4") == 0);
    CHECK(season_kind_row_of(SEASON_KIND_CA5, SEASON_MODE_HOME) == NULL && season_kind_row_of(SEASON_KIND_CA5, SEASON_MODE_ANY) == NULL);
    CHECK(season_kind_row_of(SEASON_KIND_BR4, SEASON_MODE_HOME) == NULL && season_kind_row_of(SEASON_KIND_BR4, SEASON_MODE_ANY) == NULL);
    CHECK(SEASON_FUNCTION_SUM == 1 && SEASON_FUNCTION_SQUARE_OF_SUM == 2 && SEASON_FUNCTION_SUM_OF_SQUARES == 3);
    CHECK(SEASON_FUNCTION_SMALLEST == 4 && SEASON_FUNCTION_LARGEST == 5);
    CHECK(strcmp(season_refusal_text(SEASON_REFUSED_SAME), "both games are the same") == 0);
    CHECK(strcmp(season_refusal_text(14), "no refusal has this number") == 0);
    CHECK(SEASON_CHECKER_VERSION_NUMBER == version());

    memcpy(sheet, season + end, 2);
    reply = season_open(season, end, sheet, 2, ledger, 3, tally, 4);
    CHECK(!reply.declined && reply.number == SEASON_INFEASIBLE && reply.infeasibility == 4 && reply.objective == 2);
    CHECK(ledger[0] == 1 && ledger[1] == 1 && ledger[2] == 1);
    CHECK(tally[0] == 4 && tally[1] == 2 && tally[2] == 4 && tally[3] == 2);
    reply = season_set(season, end, sheet, 2, ledger, 3, tally, 4, 0, 0);
    CHECK(!reply.declined && reply.number == SEASON_UNPLACED && reply.infeasibility == -4 && reply.objective == -1);
    CHECK(sheet[0] == 0 && ledger[0] == 0 && tally[2] == 0 && tally[3] == 1);
    reply = season_exchange(season, end, sheet, 2, ledger, 3, tally, 4, 0, 1);
    CHECK(reply.declined && reply.number == SEASON_REFUSED_UNPLACED);
    reply = season_set(season, end, sheet, 2, ledger, 3, tally, 4, 0, 2);
    CHECK(reply.declined && reply.number == SEASON_REFUSED_CLASH && reply.infeasibility == 0 && reply.objective == 0);
    reply = season_set(season, end, sheet, 2, ledger, 3, tally, 4, 0, UINT64_MAX);
    CHECK(reply.declined && reply.number == SEASON_REFUSED_SLOT);
    reply = season_set(season, end, sheet, 2, ledger, 3, tally, 3, 2, 0);
    CHECK(reply.declined && reply.number == SEASON_REFUSED_LENGTHS);

    /* Trips: both kinds, then without the second away game, and with it after the last slot of S, which is not BR4's trip. */
    end = season_end(trips, sizeof trips);
    CHECK(end == sizeof trips - 2 && season_ledger_items(trips, end) == 3 && season_deviations(trips, end, 0) == 2);
    memcpy(sheet, trips + end, 2);
    reply = season_open(trips, end, sheet, 2, ledger, 3, tally, 4);
    CHECK(!reply.declined && reply.number == SEASON_INFEASIBLE && reply.infeasibility == 5 && reply.objective == 3);
    CHECK(ledger[0] == 0 && ledger[1] == 1 && ledger[2] == 1);
    reply = season_set(trips, end, sheet, 2, ledger, 3, tally, 4, 1, 0);
    CHECK(!reply.declined && reply.number == SEASON_UNPLACED && reply.infeasibility == 5 && reply.objective == -3);
    CHECK(ledger[0] == 1 && ledger[1] == 1 && ledger[2] == 0);
    reply = season_set(trips, end, sheet, 2, ledger, 3, tally, 4, 1, 4);
    CHECK(!reply.declined && reply.number == SEASON_INFEASIBLE && reply.infeasibility == 0 && reply.objective == 3);
    CHECK(ledger[0] == 1 && ledger[1] == 1 && ledger[2] == 1 && tally[0] == 10 && tally[1] == 3 && tally[2] == 10 && tally[3] == 3);
    end = season_end(season, sizeof season);

    /* The same by way of the struct. */
    lent.season = season;
    lent.season_len = end;
    lent.sheet = sheet;
    lent.sheet_len = 2;
    lent.ledger = ledger;
    lent.ledger_len = 3;
    lent.tally = tally;
    lent.tally_len = 4;
    memcpy(sheet, season + end, 2);
    reply = season_buffers_open(&lent);
    CHECK(!reply.declined && reply.number == SEASON_INFEASIBLE && reply.infeasibility == 4 && reply.objective == 2);
    reply = season_buffers_exchange(&lent, 0, 1);
    CHECK(!reply.declined && reply.number == SEASON_INFEASIBLE && sheet[0] == 2 && sheet[1] == 1);
    reply = season_buffers_set(&lent, 0, 0);
    CHECK(!reply.declined && reply.number == SEASON_UNPLACED && reply.infeasibility == -4 && sheet[0] == 0);

    /* Null where the length is 0. */
    tally[0] = tally[1] = 7;
    reply = season_open(none, sizeof none, NULL, 0, NULL, 0, tally, 2);
    CHECK(!reply.declined && reply.number == SEASON_FEASIBLE && tally[0] == 0 && tally[1] == 0);
    reply = season_set(none, sizeof none, NULL, 0, NULL, 0, tally, 2, 0, 0);
    CHECK(reply.declined && reply.number == SEASON_REFUSED_GAME);
    reply = season_exchange(none, sizeof none, NULL, 0, NULL, 0, tally, 2, 0, 1);
    CHECK(reply.declined && reply.number == SEASON_REFUSED_GAME);
    reply = season_open(none, sizeof none, NULL, 0, NULL, 0, NULL, 0);
    CHECK(reply.declined && reply.number == SEASON_REFUSED_LENGTHS);
    reply = season_set(NULL, 0, NULL, 0, NULL, 0, NULL, 0, 0, 0);
    CHECK(reply.declined && reply.number == SEASON_REFUSED_SHORT);
    return failed;
}
