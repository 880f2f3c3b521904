/* season_explain.h: what a refused call is about, for C (C99 and later) and C++ (C++11 and later).
 *
 * NOT PROVED: this is plain C beside the proved library, for messages only. The number of a refusal comes from the library; this header
 * looks for the game, constraint, buffer or team that is at fault, so that a console can say "Birch already plays Elm in slot 9":
 *
 *     season_reply reply = season_set(season, season_len, sheet, games, ledger, entries, tally, words, game, slot);
 *     season_fault fault = season_explain_refusal(reply, SEASON_CALL_SET, season, season_len, sheet, games, entries, words, game, slot);
 *     if (fault.refusal == SEASON_REFUSED_CLASH) {
 *         printf("%s already plays %s in slot %d\n", name[fault.team], name[fault.opponent], (int)fault.slot);
 *     }
 *
 * It is called after the refused call, with the same buffers and numbers; a refused call has left the buffers as they were. It reads
 * nothing outside them and writes nothing; for a reply to other buffers it names nothing, or something else. Where several things are at fault, it names the first.
 */
#ifndef SEASON_EXPLAIN_H
#define SEASON_EXPLAIN_H

#include "season_checker.h"

#ifdef __cplusplus
extern "C" {
#endif

enum season_call { SEASON_CALL_OPEN = 0, SEASON_CALL_SET = 1, SEASON_CALL_EXCHANGE = 2 };

enum season_buffer {
    SEASON_BUFFER_NONE = 0,
    SEASON_BUFFER_SEASON = 1,
    SEASON_BUFFER_SHEET = 2,
    SEASON_BUFFER_LEDGER = 3,
    SEASON_BUFFER_TALLY = 4
};

/* Stands in a season_fault for what plays no part. */
#define SEASON_NOTHING UINT64_MAX

/* What is at fault. Behind each member, the refusals for which it is filled. */
typedef struct season_fault {
    uint8_t refusal;            /* the number of the reply; 0 if the call was not refused, and then all else is nothing */
    enum season_buffer buffer;  /* 1, 3, 7: the buffer of a wrong length */
    uint64_t items;             /* 1, 3, 7: its length; 2: the size that is out of range */
    uint64_t needed;            /* 1, 3, 7: the right length (1: at least) */
    uint64_t byte;              /* 2: where that size stands in the season: 0 teams, 1 slots, 2 games, 4 constraints */
    uint64_t constraint;        /* 5 */
    uint64_t game;              /* 4, 8, 9, 11, 12, 13 */
    uint64_t other;             /* 8, 13: the game that `team` already has in `slot`; 4: the first game of a pair that meets too often */
    uint64_t team;              /* 4: the team that does not exist or stands twice; 8, 13: the team with two games in `slot` */
    uint64_t opponent;          /* 8, 13: whom it plays in `other` */
    uint64_t slot;              /* 8, 10, 13 */
} season_fault;

/* Parts of season_explain_refusal. */

static inline season_fault season_no_fault(void)
{
    season_fault fault;
    fault.refusal = 0;
    fault.buffer = SEASON_BUFFER_NONE;
    fault.items = fault.needed = fault.byte = fault.constraint = SEASON_NOTHING;
    fault.game = fault.other = fault.team = fault.opponent = fault.slot = SEASON_NOTHING;
    return fault;
}

static inline void season_fault_length(season_fault *fault, enum season_buffer buffer, size_t items, size_t needed)
{
    fault->buffer = buffer;
    fault->items = items;
    fault->needed = needed;
}

/* Refusal 2: the first size that is out of range. */
static inline void season_fault_size(season_fault *fault, const uint8_t *season)
{
    const size_t games = season[2] + 256 * (size_t)season[3], constraints = season[4] + 256 * (size_t)season[5];
    if (season[0] < 2 || season[0] > SEASON_MAX_TEAMS) {
        fault->byte = 0;
        fault->items = season[0];
    } else if (season[1] < 1 || season[1] > SEASON_MAX_SLOTS) {
        fault->byte = 1;
        fault->items = season[1];
    } else if (games > SEASON_MAX_GAMES) {
        fault->byte = 2;
        fault->items = games;
    } else {
        fault->byte = 4;
        fault->items = constraints;
    }
}

/* Refusal 4: the first game with a wrong team, or of a pair that has met 8 times before. */
static inline void season_fault_game(season_fault *fault, const uint8_t *season, size_t games)
{
    const uint8_t *home = season + 6, *away = season + 6 + games;
    size_t g, k;
    for (g = 0; g < games; g++) {
        size_t meetings = 0, first = games;
        fault->game = g;
        if (home[g] >= season[0] || away[g] >= season[0]) {
            fault->team = home[g] >= season[0] ? home[g] : away[g];
            return;
        }
        if (home[g] == away[g]) {
            fault->team = home[g];
            return;
        }
        for (k = 0; k < g; k++) {
            if ((home[k] == home[g] && away[k] == away[g]) || (home[k] == away[g] && away[k] == home[g])) {
                first = meetings == 0 ? k : first;
                meetings++;
            }
        }
        if (meetings >= SEASON_MAX_MEETINGS) {
            fault->other = first;
            return;
        }
    }
    fault->game = SEASON_NOTHING;
}

/* Refusal 5: the first constraint that the library itself refuses in a season of its own. Lent no tally, it gets no further than
 * refusal 7 with a constraint that keeps the rules. */
static inline void season_fault_constraint(season_fault *fault, const uint8_t *season, size_t games, size_t constraints)
{
    uint8_t one[6 + 24] = { 0 }, sheet[1] = { 0 };
    uint32_t ledger[1] = { 0 };
    uint64_t tally[1] = { 0 };
    size_t c, k;
    one[0] = season[0];
    one[1] = season[1];
    one[4] = 1;
    for (c = 0; c < constraints; c++) {
        const uint8_t *head = season + 6 + 2 * games + 8 * c;
        const uint8_t *body = season + 6 + 2 * games + 8 * constraints + 16 * c;
        for (k = 0; k < 24; k++) {
            one[6 + k] = k < 8 ? head[k] : body[k - 8];
        }
        if (season_open(one, sizeof one, sheet, 0, ledger, 0, tally, 0).number == SEASON_REFUSED_CONSTRAINTS) {
            fault->constraint = c;
            return;
        }
    }
}

/* Whether game g has a team of game k; the team, and whom it plays in game k. */
static inline bool season_fault_shares(season_fault *fault, const uint8_t *season, size_t games, uint64_t g, uint64_t k)
{
    const uint8_t *home = season + 6, *away = season + 6 + games;
    const bool as_home = home[k] == home[g] || home[k] == away[g];
    const bool as_away = away[k] == home[g] || away[k] == away[g];
    if (!as_home && !as_away) {
        return false;
    }
    fault->game = g;
    fault->other = k;
    fault->team = as_home ? home[k] : away[k];
    fault->opponent = as_home ? away[k] : home[k];
    return true;
}

/* Refusal 8: the first game with a slot that does not exist, or with a team that has an earlier game in that slot. */
static inline void season_fault_sheet(season_fault *fault, const uint8_t *season, const uint8_t *sheet, size_t games)
{
    size_t g, k;
    for (g = 0; g < games; g++) {
        fault->slot = sheet[g];
        if (sheet[g] > season[1]) {
            fault->game = g;
            return;
        }
        for (k = 0; sheet[g] > 0 && k < g; k++) {
            if (sheet[k] == sheet[g] && season_fault_shares(fault, season, games, g, k)) {
                return;
            }
        }
    }
}

/* Refusal 13: a game that stays, in the new slot of a game that moves. Two games that trade their slots do not meet. */
static inline bool season_fault_clash(season_fault *fault, const uint8_t *season, const uint8_t *sheet, size_t games, uint64_t game,
                                      uint64_t slot, uint64_t moves_too)
{
    size_t k;
    fault->slot = slot;
    for (k = 0; k < games; k++) {
        if (k != game && k != moves_too && sheet[k] == slot && season_fault_shares(fault, season, games, game, k)) {
            return true;
        }
    }
    return false;
}

/* What is at fault in a refused call. `first` and `second` are the numbers that the call was given: game and slot of a set, the two games
 * of an exchange, anything for an open. */
static inline season_fault season_explain_refusal(season_reply reply, enum season_call call, const uint8_t *season, size_t season_len,
                                                  const uint8_t *sheet, size_t sheet_len, size_t ledger_len, size_t tally_len,
                                                  uint64_t first, uint64_t second)
{
    season_fault fault = season_no_fault();
    size_t games, constraints;
    if (!reply.declined) {
        return fault;
    }
    fault.refusal = reply.number;
    if (season_len < 6) {
        season_fault_length(&fault, SEASON_BUFFER_SEASON, season_len, 6);
        return fault;
    }
    games = season[2] + 256 * (size_t)season[3];
    constraints = season[4] + 256 * (size_t)season[5];
    /* A reply to other buffers or numbers than these names nothing, and nothing is read outside them. */
    if (reply.number > SEASON_REFUSED_SEASON && season_len != 6 + 2 * games + 24 * constraints) {
        return fault;
    }
    if (reply.number > SEASON_REFUSED_LENGTHS && sheet_len != games) {
        return fault;
    }
    if (reply.number > SEASON_REFUSED_SAME && (first >= games || (call == SEASON_CALL_EXCHANGE && second >= games))) {
        return fault;
    }
    switch (reply.number) {
    case SEASON_REFUSED_SIZES:
        season_fault_size(&fault, season);
        break;
    case SEASON_REFUSED_SEASON:
        season_fault_length(&fault, SEASON_BUFFER_SEASON, season_len, 6 + 2 * games + 24 * constraints);
        break;
    case SEASON_REFUSED_GAMES:
        season_fault_game(&fault, season, games);
        break;
    case SEASON_REFUSED_CONSTRAINTS:
        season_fault_constraint(&fault, season, games, constraints);
        break;
    case SEASON_REFUSED_LENGTHS:
        if (sheet_len != games) {
            season_fault_length(&fault, SEASON_BUFFER_SHEET, sheet_len, games);
        } else if (ledger_len != season_ledger_items(season, season_len)) {
            season_fault_length(&fault, SEASON_BUFFER_LEDGER, ledger_len, season_ledger_items(season, season_len));
        } else {
            season_fault_length(&fault, SEASON_BUFFER_TALLY, tally_len, constraints + 2);
        }
        break;
    case SEASON_REFUSED_SHEET:
        season_fault_sheet(&fault, season, sheet, games);
        break;
    case SEASON_REFUSED_GAME:
        fault.game = first >= games ? first : second;
        break;
    case SEASON_REFUSED_SLOT:
        fault.slot = second;
        break;
    case SEASON_REFUSED_SAME:
        fault.game = first;
        break;
    case SEASON_REFUSED_UNPLACED:
        fault.game = sheet[first] == 0 ? first : second;  /* an exchange, so both are games */
        break;
    case SEASON_REFUSED_CLASH:
        if (call == SEASON_CALL_EXCHANGE) {
            if (!season_fault_clash(&fault, season, sheet, games, first, sheet[second], second)) {
                season_fault_clash(&fault, season, sheet, games, second, sheet[first], first);
            }
        } else {
            season_fault_clash(&fault, season, sheet, games, first, second, first);
        }
        break;
    default:
        break;
    }
    return fault;
}

#ifdef __cplusplus
}
#endif

#endif
