/* Another implementation of the desk's seven functions, written from the specification alone, for the tests to compare with. */
#ifndef ORACLE_H
#define ORACLE_H

#include <stdbool.h>

#include "desk.h"

/* How many of each thing the specification has, beside what desk.h says. */
enum {
    SLOTS = DESK_CLASSES_BYTES,
    LABELS = 16,
    NAMES = 48,
    VARIABLES = 16,
    GENERAL = 4,    /* links 0 to 3, with a set of targets for each slot */
    FUNCTIONAL = 4, /* links 4 to 7, with one target for each slot */
    LINKS = GENERAL + FUNCTIONAL,
    EVERYWHERE = 2 * LINKS, /* the way behind the links and their reverses */
    WAYS = EVERYWHERE + 1,
    REASONS = DESK_EDITION + 1,
    SHEET_BYTES = DESK_EDITS_MAX * DESK_EDIT_BYTES
};

enum { TRUE, HERE, LABEL, NAME, VARIABLE, NOT, OR, AND, DIAMOND, BOX, MU, NU, SLOT, KINDS };
enum { CN1, CN2, AP, DP, AT, DT1, DT2, AS, DS, OPERATIONS };

/* What each operation's operands are: n name, N name but 0, m link, f link 4 to 7, p label, k slot, - unused. */
extern const char *const operands[OPERATIONS];

/* Where the parts of a site stand. */
enum {
    LINK_BYTES = SLOTS * DESK_SET_BYTES,
    LABELS_AT = DESK_SET_BYTES,
    NAMES_AT = LABELS_AT + LABELS * DESK_SET_BYTES,
    TARGETS_AT = NAMES_AT + NAMES,
    ROWS_AT = TARGETS_AT + FUNCTIONAL * SLOTS,
    SITE_END = ROWS_AT + GENERAL * LINK_BYTES
};

_Static_assert(SITE_END == DESK_SITE_BYTES, "the parts of a site fill it");
_Static_assert(DESK_NODES_MAX * DESK_NODE_BYTES == DESK_TABLE_BYTES, "the nodes fill a table");

static inline int label_at(int label)
{
    return LABELS_AT + DESK_SET_BYTES * label;
}

/* The targets of a slot, for a link 0 to 3. */
static inline int row_at(int link, int slot)
{
    return ROWS_AT + LINK_BYTES * link + DESK_SET_BYTES * slot;
}

/* The target of a slot, for a link 4 to 7. */
static inline int target_at(int link, int slot)
{
    return TARGETS_AT + SLOTS * (link - GENERAL) + slot;
}

static inline void put_slot(uint8_t *set, int slot)
{
    set[slot / 8] |= (uint8_t)(1 << slot % 8);
}

/* How many children a node of this kind has. */
static inline int children(int kind)
{
    return kind == OR || kind == AND ? 2 : kind == NOT || (DIAMOND <= kind && kind <= NU) ? 1 : 0;
}

/* A site opened out: slots as arrays of bool, each link as the list of its pairs. */
struct arc {
    uint8_t from, to;
};

struct arcs {
    size_t count;
    struct arc at[SLOTS * SLOTS];
};

struct model {
    bool present[SLOTS];
    bool label[LABELS][SLOTS];
    uint8_t name[NAMES];
    struct arcs link[LINKS];
};

/* Opens out DESK_SITE_BYTES bytes, whether the site is valid or not. */
void model_read(struct model *model, const uint8_t *site);

/* Makes one edit of a sheet of this edition; false, and nothing is changed, if it does not go through. */
bool model_edit(struct model *model, const uint8_t *edit, uint32_t edition);

/* The target of a slot by a functional link, 0 for none. */
int model_target(const struct model *model, int link, int from);

struct desk_listed oracle_list(const uint8_t *site, size_t site_len, const uint8_t *cond, size_t cond_len, uint32_t limit,
                               uint8_t *set, size_t set_len, uint8_t *work, size_t work_len);
struct desk_applied oracle_apply(const uint8_t *site, size_t site_len, const uint8_t *sheet, size_t sheet_len, uint32_t edition,
                                 uint8_t *result, size_t result_len);
struct desk_rewritten oracle_rewrite(const uint8_t *cond, size_t cond_len, const uint8_t *sheet, size_t sheet_len, uint32_t edition,
                                     uint8_t *result, size_t result_len);
struct desk_rewritten oracle_through(const uint8_t *sheet, size_t sheet_len, uint32_t edition, uint8_t *result, size_t result_len);
struct desk_classed oracle_classes(const uint8_t *site, size_t site_len, uint8_t *classes, size_t classes_len);
struct desk_chained oracle_chain(const uint8_t *site, size_t site_len, const uint8_t *cond, size_t cond_len, uint32_t way, uint32_t start,
                                 uint8_t *chain, size_t chain_len, uint8_t *set, size_t set_len, uint8_t *work, size_t work_len);
struct desk_done oracle_job(const uint8_t *file, size_t file_len, uint32_t limit, uint8_t *site, size_t site_len,
                            uint8_t *table, size_t table_len, uint8_t *after, size_t after_len, uint8_t *today, size_t today_len,
                            uint8_t *classes, size_t classes_len, uint8_t *work, size_t work_len);

/* The set and the rounds once more for an accepted site and condition: the tree is walked path by path, and nothing is shared or kept. False,
 * and nothing is said, where the tree has too many nodes for that. */
bool oracle_walk(const uint8_t *site, const uint8_t *cond, size_t cond_len, uint8_t *set, uint32_t *rounds);

/* The chain or the set once more for accepted inputs: every chain from the start is tried, length by length, up to the first length at which one ends
 * in the goal. `ties` is how many of that length do. False, and nothing is said, where there are too many to try. */
struct tried {
    uint32_t found, steps, ties;
    uint8_t chain[DESK_CHAIN_BYTES], set[DESK_SET_BYTES];
};

bool oracle_try_chains(const uint8_t *site, const uint8_t *cond, size_t cond_len, uint32_t way, uint32_t start, struct tried *tried);

/* The rounds of the condition on the site after, and of the rewritten table on the site, of a job that items 2 to 14 accept; each at most one
 * more than the highest limit. False for any other job. */
bool oracle_rounds(const uint8_t *file, size_t file_len, uint32_t *after, uint32_t *today);

#endif
