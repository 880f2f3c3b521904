/* season_checker.h: the timetable checker, for C (C99 and later) and C++ (C++11 and later).
 *
 * A season (teams, slots, games, constraints) and a sheet (the slot of each game) go in; the deviations, penalties, totals and the
 * verdict come out, and stay right while games move. docs/FORMAT.md has the bytes, the kinds of constraints and every rule.
 *
 * With n teams, P slots, G games, C constraints and E deviations, the caller lends four buffers to each call:
 *
 *     buffer   item       items                 helper                holds
 *     season   uint8_t    6 + 2*G + 24*C        season_end            sizes, games, constraints; never written
 *     sheet    uint8_t    G                     season_sheet_items    the slot of each game, 1 to P, or 0 if it is unplaced
 *     ledger   uint32_t   E                     season_ledger_items   the deviations, constraint by constraint
 *     tally    uint64_t   C + 2                 season_tally_items    C penalties, then infeasibility, then objective
 *
 * Each pointer is followed by its length in items, not bytes. A buffer of another length is refused (SEASON_REFUSED_LENGTHS).
 *
 * The caller owes two things, and nothing checks them:
 *   1. Lengths are true: each pointer is aligned for its items and has as many items behind it as its length says. Where the length
 *      is 0 nothing is read or written, so the pointer may be null.
 *   2. The buffers of one call do not overlap, and nobody else writes them during the call.
 * All else may be anything: every call returns, whatever the buffers hold and whatever numbers it is given, and reads and writes
 * nothing outside them. A refused call leaves every buffer as it was. Calls keep no state between them: threads may make calls at the
 * same time, each on a sheet, ledger and tally of its own; they may share a season.
 */
#ifndef SEASON_CHECKER_H
#define SEASON_CHECKER_H

#include <stddef.h>
#include <stdint.h>
#ifndef __cplusplus
#include <stdbool.h>
#endif

/* CHANGELOG.md says what each version changed. The number is 10000 * major + 100 * minor + patch. */
#define SEASON_CHECKER_VERSION "1.3.0"
#define SEASON_CHECKER_VERSION_NUMBER 10300

#ifdef __cplusplus
extern "C" {
#endif

/* The largest sizes of a season. */
enum {
    SEASON_MAX_TEAMS = 32,
    SEASON_MAX_SLOTS = 64,
    SEASON_MAX_GAMES = 1024,
    SEASON_MAX_CONSTRAINTS = 1024,
    SEASON_MAX_MEETINGS = 8,       /* games between two teams, home and away together */
    SEASON_MAX_BYTES = 26630,      /* of a season: 6 + 2*1024 + 24*1024 */
    SEASON_MAX_DEVIATIONS = 496    /* of one constraint */
};

/* The bytes of a season: sizes, home teams, away teams, heads, bodies. */
enum {
    SEASON_SIZES_BYTES = 6,
    SEASON_HEAD_BYTES = 8,         /* kind, mode, hard (1) or soft (0), function, weight, kmin, kmax, w */
    SEASON_BODY_BYTES = 16,        /* T1 (4 bytes), T2 (4 bytes), S (8 bytes) */
    SEASON_TEAMS_BYTES = 4,        /* of a group of teams: bit t is team t */
    SEASON_SLOTS_BYTES = 8         /* of a group of slots: bit s - 1 is slot s */
};

/* The kinds of constraints: byte 0 of a head. docs/KINDS.md has each with an example. */
enum season_kind {
    SEASON_KIND_CA1 = 11,          /* games of a team in some slots */
    SEASON_KIND_CA2 = 12,          /* games of a team against some teams in some slots */
    SEASON_KIND_CA3 = 13,          /* games of a team in each run of w slots */
    SEASON_KIND_CA4 = 14,          /* games between two groups in some slots */
    SEASON_KIND_CA5 = 15,          /* away games of a team against some teams on each of its trips */
    SEASON_KIND_GA1 = 21,          /* games with the home team in one group and the away team in another */
    SEASON_KIND_BR1 = 31,          /* breaks of a team */
    SEASON_KIND_BR2 = 32,          /* breaks of a group together */
    SEASON_KIND_BR4 = 34,          /* trips of a team: two or more away games with no home game between */
    SEASON_KIND_FA1 = 41,          /* home games less away games of a team, at any time */
    SEASON_KIND_FA2 = 42,          /* games of one team less those of another, at any time */
    SEASON_KIND_SE1 = 51           /* slots between two games of a pair */
};

/* The modes: byte 1 of a head. Modes 4 to 6 are EACH for CA4 (a count for each slot of S), EXACTLY for BR1 and BR2 (kmax is the
 * number that is wanted). CA5 and BR4 have mode AWAY only; GA1, FA1 and SE1 have mode 1. */
enum season_mode {
    SEASON_MODE_HOME = 1,
    SEASON_MODE_AWAY = 2,
    SEASON_MODE_ANY = 3,
    SEASON_MODE_EACH_HOME = 4,
    SEASON_MODE_EACH_AWAY = 5,
    SEASON_MODE_EACH_ANY = 6,
    SEASON_MODE_EXACTLY_HOME = 4,
    SEASON_MODE_EXACTLY_AWAY = 5,
    SEASON_MODE_EXACTLY_ANY = 6
};

/* The functions from deviations to a penalty: byte 3 of a head. */
enum season_function {
    SEASON_FUNCTION_SUM = 1,
    SEASON_FUNCTION_SQUARE_OF_SUM = 2,
    SEASON_FUNCTION_SUM_OF_SQUARES = 3,
    SEASON_FUNCTION_SMALLEST = 4,
    SEASON_FUNCTION_LARGEST = 5
};

/* What a call answers. */
typedef struct season_reply {
    bool declined;          /* true: refused, and nothing was written */
    uint8_t number;         /* enum season_refusal if declined, else enum season_verdict */
    int64_t infeasibility;  /* change of the infeasibility: new total less old; 0 if declined */
    int64_t objective;      /* change of the objective; 0 if declined */
} season_reply;

enum season_verdict {
    SEASON_FEASIBLE = 0,    /* every game has a slot, and the infeasibility is 0 */
    SEASON_UNPLACED = 1,    /* some game has no slot */
    SEASON_INFEASIBLE = 2   /* every game has a slot, and the infeasibility is above 0 */
};

/* Why a call is refused. If several hold, the reply has the lowest that applies to the call. */
enum season_refusal {
    SEASON_REFUSED_SHORT = 1,        /* the season has fewer than 6 bytes */
    SEASON_REFUSED_SIZES = 2,        /* n, P, G or C is out of range */
    SEASON_REFUSED_SEASON = 3,       /* the season is not 6 + 2*G + 24*C bytes long */
    SEASON_REFUSED_GAMES = 4,        /* a game's team is n or more, or its teams are one, or a pair meets more than 8 times */
    SEASON_REFUSED_CONSTRAINTS = 5,  /* a constraint breaks a rule of its kind */
    SEASON_REFUSED_DEVIATIONS = 6,   /* E is above 6000: only the program season-report says so, no call here does */
    SEASON_REFUSED_LENGTHS = 7,      /* sheet, ledger or tally has not exactly G, E or C + 2 items */
    SEASON_REFUSED_SHEET = 8,        /* a slot of the sheet is above P, or a team has two games in one slot */
    SEASON_REFUSED_GAME = 9,         /* set, exchange: a game number is G or more */
    SEASON_REFUSED_SLOT = 10,        /* set: the slot is above P */
    SEASON_REFUSED_SAME = 11,        /* exchange: both games are the same */
    SEASON_REFUSED_UNPLACED = 12,    /* exchange: one of the games is unplaced */
    SEASON_REFUSED_CLASH = 13        /* set, exchange: a team would have two games in one slot */
};

/* Takes the sheet as it is. Accepted, it fills the whole ledger and the whole tally, whatever they held; its two changes are the two
 * totals. Refusals: 1 to 5, 7, 8. */
season_reply season_open(const uint8_t *season, size_t season_len, const uint8_t *sheet, size_t sheet_len,
                         uint32_t *ledger, size_t ledger_len, uint64_t *tally, size_t tally_len);

/* Gives a game a slot; slot 0 takes it off the sheet. The slot that it has already is accepted and changes nothing.
 * Refusals: 1 to 5, 7, 8, 9, 10, 13. */
season_reply season_set(const uint8_t *season, size_t season_len, uint8_t *sheet, size_t sheet_len,
                        uint32_t *ledger, size_t ledger_len, uint64_t *tally, size_t tally_len,
                        uint64_t game, uint64_t slot);

/* Lets two placed games trade their slots; for the two games (i, j) and (j, i) of a pair that swaps home and away.
 * Refusals: 1 to 5, 7, 8, 9, 11, 12, 13. */
season_reply season_exchange(const uint8_t *season, size_t season_len, uint8_t *sheet, size_t sheet_len,
                             uint32_t *ledger, size_t ledger_len, uint64_t *tally, size_t tally_len,
                             uint64_t game, uint64_t other);

/* After an accepted open, as long as only these calls write sheet, ledger and tally and the season stays the same, each set and
 * exchange leaves the ledger and the tally that a fresh open of the new sheet would give. If something else wrote the ledger or the
 * tally, another version of the library among them, open again; until then set and exchange do no harm, but figures, totals and
 * verdict can be wrong. */

/* Helpers from here on. They are C code and no part of the proved library; the shared library has them as functions too, for callers
 * that cannot read this header. They read nothing beyond the length that they are given. What they answer for bytes that are no
 * season is 0 or less than the truth, and does not matter: open refuses such bytes. */
#ifndef SEASON_HELPER
#define SEASON_HELPER static inline
#endif

/* The four buffers as they are lent, and the three calls on them. A buffer that a later version asks for is one more field here:
 * calls that are made in this form keep their text. */
typedef struct season_buffers {
    const uint8_t *season;
    size_t season_len;
    uint8_t *sheet;
    size_t sheet_len;
    uint32_t *ledger;
    size_t ledger_len;
    uint64_t *tally;
    size_t tally_len;
} season_buffers;

SEASON_HELPER season_reply season_buffers_open(const season_buffers *lent)
{
    return season_open(lent->season, lent->season_len, lent->sheet, lent->sheet_len, lent->ledger, lent->ledger_len, lent->tally,
                       lent->tally_len);
}

SEASON_HELPER season_reply season_buffers_set(const season_buffers *lent, uint64_t game, uint64_t slot)
{
    return season_set(lent->season, lent->season_len, lent->sheet, lent->sheet_len, lent->ledger, lent->ledger_len, lent->tally,
                      lent->tally_len, game, slot);
}

SEASON_HELPER season_reply season_buffers_exchange(const season_buffers *lent, uint64_t game, uint64_t other)
{
    return season_exchange(lent->season, lent->season_len, lent->sheet, lent->sheet_len, lent->ledger, lent->ledger_len, lent->tally,
                           lent->tally_len, game, other);
}

/* A refusal in words, for a message; never null. */
SEASON_HELPER const char *season_refusal_text(unsigned number)
{
    switch (number) {
    case SEASON_REFUSED_SHORT: return "the season has fewer than 6 bytes";
    case SEASON_REFUSED_SIZES: return "a size is out of range";
    case SEASON_REFUSED_SEASON: return "the season has not the length that its sizes ask for";
    case SEASON_REFUSED_GAMES: return "a game has wrong teams, or a pair meets more than 8 times";
    case SEASON_REFUSED_CONSTRAINTS: return "a constraint breaks a rule of its kind";
    case SEASON_REFUSED_DEVIATIONS: return "there are more than 6000 deviations";
    case SEASON_REFUSED_LENGTHS: return "sheet, ledger or tally has not the right length";
    case SEASON_REFUSED_SHEET: return "the sheet has a wrong slot, or a team has two games in one slot";
    case SEASON_REFUSED_GAME: return "there is no such game";
    case SEASON_REFUSED_SLOT: return "there is no such slot";
    case SEASON_REFUSED_SAME: return "both games are the same";
    case SEASON_REFUSED_UNPLACED: return "one of the games is unplaced";
    case SEASON_REFUSED_CLASH: return "a team would have two games in one slot";
    default: return "no refusal has this number";
    }
}

/* What a constraint has one deviation for. */
enum season_per {
    SEASON_PER_CONSTRAINT = 0,
    SEASON_PER_TEAM = 1,           /* each team of T1, rising */
    SEASON_PER_PAIR = 2,           /* each pair of teams of T1, rising by the lower one, then by the other */
    SEASON_PER_SLOT = 3            /* each slot of S, rising */
};

/* A row of the table of kinds: in these modes the kind has one deviation for each of these. */
typedef struct season_kind_row {
    uint8_t kind;
    uint8_t first_mode;
    uint8_t last_mode;
    uint8_t per;                   /* enum season_per */
    char name[4];
} season_kind_row;

/* The table of kinds, and its only copy: the row of a kind in a mode, or null if there is no such kind or it has no such mode. */
SEASON_HELPER const season_kind_row *season_kind_row_of(unsigned kind, unsigned mode)
{
    static const season_kind_row rows[] = {
        { SEASON_KIND_CA1, 1, 3, SEASON_PER_TEAM, "CA1" },
        { SEASON_KIND_CA2, 1, 3, SEASON_PER_TEAM, "CA2" },
        { SEASON_KIND_CA3, 1, 3, SEASON_PER_TEAM, "CA3" },
        { SEASON_KIND_CA4, 1, 3, SEASON_PER_CONSTRAINT, "CA4" },
        { SEASON_KIND_CA4, 4, 6, SEASON_PER_SLOT, "CA4" },
        { SEASON_KIND_CA5, 2, 2, SEASON_PER_TEAM, "CA5" },
        { SEASON_KIND_GA1, 1, 1, SEASON_PER_CONSTRAINT, "GA1" },
        { SEASON_KIND_BR1, 1, 6, SEASON_PER_TEAM, "BR1" },
        { SEASON_KIND_BR2, 1, 6, SEASON_PER_CONSTRAINT, "BR2" },
        { SEASON_KIND_BR4, 2, 2, SEASON_PER_TEAM, "BR4" },
        { SEASON_KIND_FA1, 1, 1, SEASON_PER_TEAM, "FA1" },
        { SEASON_KIND_FA2, 1, 3, SEASON_PER_PAIR, "FA2" },
        { SEASON_KIND_SE1, 1, 1, SEASON_PER_PAIR, "SE1" }
    };
    size_t k;
    for (k = 0; k < sizeof rows / sizeof rows[0]; k++) {
        if (rows[k].kind == kind && rows[k].first_mode <= mode && mode <= rows[k].last_mode) {
            return &rows[k];
        }
    }
    return NULL;
}

/* A number of two bytes, the lower one first. */
SEASON_HELPER size_t season_number_at(const uint8_t *bytes, size_t at)
{
    return bytes[at] + 256 * (size_t)bytes[at + 1];
}

/* Where the season ends and a sheet that follows it begins: 6 + 2*G + 24*C, or `length` if there are fewer bytes. */
SEASON_HELPER size_t season_end(const uint8_t *bytes, size_t length)
{
    size_t end;
    if (length < SEASON_SIZES_BYTES) {
        return length;
    }
    end = SEASON_SIZES_BYTES + 2 * season_number_at(bytes, 2) + (SEASON_HEAD_BYTES + SEASON_BODY_BYTES) * season_number_at(bytes, 4);
    return end < length ? end : length;
}

/* G, the items of the sheet; 0 for fewer than 6 bytes. */
SEASON_HELPER size_t season_sheet_items(const uint8_t *season, size_t season_len)
{
    return season_len < SEASON_SIZES_BYTES ? 0 : season_number_at(season, 2);
}

/* C + 2, the items of the tally; 2 for fewer than 6 bytes. */
SEASON_HELPER size_t season_tally_items(const uint8_t *season, size_t season_len)
{
    return season_len < SEASON_SIZES_BYTES ? 2 : season_number_at(season, 4) + 2;
}

/* The 8 bytes of constraint c's head, or null if there is no constraint c or the season has another length than its sizes ask for. */
SEASON_HELPER const uint8_t *season_head(const uint8_t *season, size_t season_len, size_t c)
{
    size_t games, constraints;
    if (season_len < SEASON_SIZES_BYTES) {
        return NULL;
    }
    games = season_number_at(season, 2);
    constraints = season_number_at(season, 4);
    if (c >= constraints || season_len != SEASON_SIZES_BYTES + 2 * games + (SEASON_HEAD_BYTES + SEASON_BODY_BYTES) * constraints) {
        return NULL;
    }
    return season + SEASON_SIZES_BYTES + 2 * games + SEASON_HEAD_BYTES * c;
}

/* The 16 bytes of its body, or null in the same cases. */
SEASON_HELPER const uint8_t *season_body(const uint8_t *season, size_t season_len, size_t c)
{
    const uint8_t *head = season_head(season, season_len, c);
    if (head == NULL) {
        return NULL;
    }
    return head + SEASON_HEAD_BYTES * (season_number_at(season, 4) - c) + SEASON_BODY_BYTES * c;
}

/* How many bits are set in some bytes: the size of a group. */
SEASON_HELPER size_t season_group_size(const uint8_t *group, size_t bytes)
{
    size_t k, size = 0;
    for (k = 0; k < 8 * bytes; k++) {
        size += (size_t)(group[k / 8] >> (k % 8) & 1);
    }
    return size;
}

/* How many deviations constraint c has; 0 if there is no such constraint, kind or mode. */
SEASON_HELPER size_t season_deviations(const uint8_t *season, size_t season_len, size_t c)
{
    const uint8_t *head = season_head(season, season_len, c), *body = season_body(season, season_len, c);
    const season_kind_row *row = head == NULL ? NULL : season_kind_row_of(head[0], head[1]);
    size_t teams;
    if (row == NULL) {
        return 0;
    }
    switch (row->per) {
    case SEASON_PER_CONSTRAINT:
        return 1;
    case SEASON_PER_TEAM:
        return season_group_size(body, SEASON_TEAMS_BYTES);
    case SEASON_PER_PAIR:
        teams = season_group_size(body, SEASON_TEAMS_BYTES);
        return teams > 0 ? teams * (teams - 1) / 2 : 0;
    case SEASON_PER_SLOT:
        return season_group_size(body + 2 * SEASON_TEAMS_BYTES, SEASON_SLOTS_BYTES);
    default:
        return 0;
    }
}

/* Where the deviations of constraint c begin in the ledger: those of all constraints before it, added up. They are ledger[first] to
 * ledger[first + season_deviations(.., c) - 1]. With c = C it is E. Who goes through all constraints adds up season_deviations. */
SEASON_HELPER size_t season_ledger_first(const uint8_t *season, size_t season_len, size_t c)
{
    size_t k, first = 0;
    for (k = 0; k < c && season_head(season, season_len, k) != NULL; k++) {
        first += season_deviations(season, season_len, k);
    }
    return first;
}

/* E, the items of the ledger; 0 if some constraint has no known kind and mode. */
SEASON_HELPER size_t season_ledger_items(const uint8_t *season, size_t season_len)
{
    size_t c;
    const uint8_t *head;
    for (c = 0; (head = season_head(season, season_len, c)) != NULL; c++) {
        if (season_kind_row_of(head[0], head[1]) == NULL) {
            return 0;
        }
    }
    return season_ledger_first(season, season_len, c);
}

#ifdef __cplusplus
}
#endif

#endif
