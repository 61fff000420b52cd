/* A cooperative plans to pull a probe. Does the plan work on the site as it is? Which places will still have a chain of uplinks to a gateway,
 * and over which places does it go? Which fans will no longer be driven by a connected probe? And what if another probe is given a new uplink
 * first? Everything that this program uses is explained in docs/SPEC.md and include/desk.h. It prints examples/plan.out, and returns 1 if a call is
 * refused.
 *
 *     tools/archive desk_c target/staticlib/libdesk.a
 *     gcc -std=c11 -Iinclude examples/plan.c target/staticlib/libdesk.a -o plan && ./plan
 */
#include "desk.h"

#include <limits.h>
#include <stdio.h>
#include <string.h>

/* ---- what the numbers stand for */

enum { GATEWAY, RELAY, PROBE, FAN };                            /* labels */
enum { DRIVES, UPLINK = DESK_GENERAL_LINKS };                   /* links: a probe drives any number of fans; a place has at most one uplink */
enum { PULLED = 1, KEPT, NEW_UPLINK };                          /* names: the probe to be pulled, another one, and where its uplink is to go;
                                                                 * name 0 is always at nil */
enum { CONNECTED };                                             /* variables */
enum { OFF_SITE = DESK_NIL, OFFICE, HILL, BARN, ORCHARD, BIN_1, BIN_2, HAY, SEED, FAN_1, FAN_2, FAN_3, FAN_4, PLACES }; /* slots */

struct place {
    const char *name;
    int label, uplink, drives[2]; /* OFF_SITE for none */
};

static const struct place places[PLACES] = {
    {"off-site", 0, OFF_SITE, {OFF_SITE, OFF_SITE}},
    {"gateway, office", GATEWAY, OFF_SITE, {OFF_SITE, OFF_SITE}},
    {"relay, hill", RELAY, OFFICE, {OFF_SITE, OFF_SITE}},
    {"relay, barn", RELAY, HILL, {OFF_SITE, OFF_SITE}},
    {"relay, orchard", RELAY, OFF_SITE, {OFF_SITE, OFF_SITE}},
    {"probe, grain bin 1", PROBE, HILL, {FAN_1, OFF_SITE}},
    {"probe, grain bin 2", PROBE, BIN_1, {FAN_1, FAN_2}},
    {"probe, hay", PROBE, BARN, {FAN_3, OFF_SITE}},
    {"probe, seed store", PROBE, BIN_2, {FAN_2, OFF_SITE}},
    {"fan 1, grain bins", FAN, HILL, {OFF_SITE, OFF_SITE}},
    {"fan 2, seed store", FAN, BIN_2, {OFF_SITE, OFF_SITE}},
    {"fan 3, hay", FAN, BARN, {OFF_SITE, OFF_SITE}},
    {"fan 4, orchard", FAN, ORCHARD, {OFF_SITE, OFF_SITE}},
};

/* A chain of uplinks leads to a gateway: mu CONNECTED (label GATEWAY or diamond UPLINK of CONNECTED). */
#define CHAIN_TO_GATEWAY                                                                            \
    DESK_NODE_INIT(DESK_KIND_LABEL, GATEWAY, 0, 0),            /* 0 */                              \
        DESK_NODE_INIT(DESK_KIND_VARIABLE, CONNECTED, 0, 0),   /* 1 */                              \
        DESK_NODE_INIT(DESK_KIND_DIAMOND, UPLINK, 1, 0),       /* 2: the uplink's target is in 1 */ \
        DESK_NODE_INIT(DESK_KIND_OR, 0, 0, 2),                 /* 3 */                              \
        DESK_NODE_INIT(DESK_KIND_MU, CONNECTED, 3, 0)          /* 4 */

static const uint8_t chain[] = {CHAIN_TO_GATEWAY};

/* Where a chain ends: desk_chain needs no loop for it, only the goal. */
static const uint8_t gateway[] = {DESK_NODE_INIT(DESK_KIND_LABEL, GATEWAY, 0, 0)};

/* A fan such that nothing that drives it has a chain of uplinks to a gateway. */
static const uint8_t idle_fan[] = {
    CHAIN_TO_GATEWAY,
    DESK_NODE_INIT(DESK_KIND_NOT, 0, 4, 0),                    /* 5 */
    DESK_NODE_INIT(DESK_KIND_BOX, DESK_REVERSE(DRIVES), 5, 0), /* 6: all that drive it are in 5 */
    DESK_NODE_INIT(DESK_KIND_LABEL, FAN, 0, 0),                /* 7 */
    DESK_NODE_INIT(DESK_KIND_AND, 0, 6, 7),                    /* 8 */
};

static const uint8_t pull[] = {DESK_EDIT_INIT(DESK_OP_DS, PULLED, 0, 0)};

/* The probe to be kept has a live uplink, over the one to be pulled. Only in edition 2 can it take a second one and drop the first. */
static const uint8_t keep_and_pull[] = {DESK_EDIT_INIT(DESK_OP_AT, UPLINK, KEPT, NEW_UPLINK), DESK_EDIT_INIT(DESK_OP_DS, PULLED, 0, 0)};

struct sheet {
    const uint8_t *at;
    size_t length;
    uint32_t edition;
};

static const struct sheet pulling = {pull, sizeof pull, DESK_EDITION_1};
static const struct sheet keeping_1 = {keep_and_pull, sizeof keep_and_pull, DESK_EDITION_1};
static const struct sheet keeping_2 = {keep_and_pull, sizeof keep_and_pull, DESK_EDITION_2};

/* A planner does not wait for more rounds than these. The conditions above take a few, one for each place on the longest chain. */
enum { ROUNDS_MOST = 10000 };

/* ---- building */

static void put_slot(uint8_t *set, int slot)
{
    set[DESK_SET_BYTE(slot)] |= (uint8_t)DESK_SET_WEIGHT(slot);
}

static int has_slot(const uint8_t *set, int slot)
{
    return (set[DESK_SET_BYTE(slot)] & DESK_SET_WEIGHT(slot)) != 0;
}

static void build_site(uint8_t *site)
{
    memset(site, 0, DESK_SITE_BYTES);
    put_slot(site + DESK_PRESENT_AT, OFF_SITE);
    for (int slot = OFFICE; slot < PLACES; slot++) {
        put_slot(site + DESK_PRESENT_AT, slot);
        put_slot(site + DESK_LABEL_AT(places[slot].label), slot);
        site[DESK_TARGET_AT(UPLINK, slot)] = (uint8_t)places[slot].uplink;
        for (int k = 0; k < 2; k++)
            if (places[slot].drives[k] != OFF_SITE)
                put_slot(site + DESK_ROW_AT(DRIVES, slot), places[slot].drives[k]);
    }
    site[DESK_NAME_AT(PULLED)] = BIN_2;
    site[DESK_NAME_AT(KEPT)] = SEED;
    site[DESK_NAME_AT(NEW_UPLINK)] = BARN;
}

static void put_number(uint8_t *at, size_t number)
{
    for (int k = 0; k < DESK_NUMBER_BYTES; k++)
        at[k] = (uint8_t)(number >> k * CHAR_BIT);
}

/* Builds the file of a job and returns its length. */
static size_t build_file(uint8_t *file, const uint8_t *site, const uint8_t *cond, size_t cond_len, const struct sheet *sheet)
{
    uint8_t *cond_at = file + DESK_SITE_BYTES, *sheet_at = cond_at + cond_len, *trailer = sheet_at + sheet->length;
    memcpy(file, site, DESK_SITE_BYTES);
    memcpy(cond_at, cond, cond_len);
    memcpy(sheet_at, sheet->at, sheet->length);
    put_number(trailer + DESK_TO_SHEET_AT, sheet->length);
    put_number(trailer + DESK_TO_CONDITION_AT, cond_len + sheet->length);
    put_number(trailer + DESK_TO_SITE_AT, DESK_SITE_BYTES + cond_len + sheet->length);
    put_number(trailer + DESK_EDITION_AT, sheet->edition);
    return DESK_SITE_BYTES + cond_len + sheet->length + DESK_TRAILER_BYTES;
}

/* ---- asking */

struct plan {
    uint8_t before[DESK_SET_BYTES], after[DESK_SET_BYTES], today[DESK_SET_BYTES]; /* lists: of the condition twice, of the rewritten one */
    uint8_t site_after[DESK_SITE_BYTES];
    struct desk_listed listed;
    struct desk_done done;
};

static int refused(uint32_t reason, uint32_t where)
{
    if (reason != DESK_OK)
        fprintf(stderr, "plan: refused %u %u\n", (unsigned)reason, (unsigned)where);
    return reason != DESK_OK;
}

/* Kept beside the sheet: the condition for its going through, which is built without a site and can be listed on any. */
struct check {
    uint8_t table[DESK_TABLE_BYTES];
    struct desk_rewritten built;
};

static int build_check(struct check *check, const struct sheet *sheet)
{
    check->built = desk_through(sheet->at, sheet->length, sheet->edition, check->table, sizeof check->table);
    return refused(check->built.reason, check->built.where);
}

/* Whether the sheet works on a site: the condition lists every slot there, or none. Returns 0 if the call was not refused. */
static int ask_check(const struct check *check, const uint8_t *site, int *works)
{
    static uint8_t set[DESK_SET_BYTES], work[DESK_WORK_BYTES];
    struct desk_listed listed = desk_list(site, DESK_SITE_BYTES, check->table, DESK_NODE_BYTES * check->built.nodes, ROUNDS_MOST,
                                          set, sizeof set, work, sizeof work);
    *works = listed.count == DESK_SLOT_COUNT;
    return refused(listed.reason, listed.where);
}

/* Lists a condition before and after the sheet. Returns 0 if neither call was refused. */
static int ask(struct plan *plan, const uint8_t *site, const uint8_t *cond, size_t cond_len, const struct sheet *sheet)
{
    static uint8_t file[DESK_FILE_BYTES_MAX], table[DESK_TABLE_BYTES], classes[DESK_CLASSES_BYTES], work[DESK_WORK_BYTES];
    size_t length = build_file(file, site, cond, cond_len, sheet);
    plan->listed = desk_list(site, DESK_SITE_BYTES, cond, cond_len, ROUNDS_MOST, plan->before, sizeof plan->before, work, sizeof work);
    plan->done = desk_job(file, length, ROUNDS_MOST, plan->site_after, sizeof plan->site_after, table, sizeof table,
                          plan->after, sizeof plan->after, plan->today, sizeof plan->today, classes, sizeof classes, work, sizeof work);
    return refused(plan->listed.reason, plan->listed.where) || refused(plan->done.reason, plan->done.where);
}

/* The uplinks from a place on: the chain to a gateway, or else all places that they lead to. */
struct uplinks {
    uint8_t chain[DESK_CHAIN_BYTES], set[DESK_SET_BYTES];
    struct desk_chained chained;
};

/* Returns 0 if the call was not refused. */
static int ask_uplinks(struct uplinks *uplinks, const uint8_t *site, int from)
{
    static uint8_t work[DESK_WORK_BYTES];
    uplinks->chained = desk_chain(site, DESK_SITE_BYTES, gateway, sizeof gateway, UPLINK, (uint32_t)from, uplinks->chain, sizeof uplinks->chain,
                                  uplinks->set, sizeof uplinks->set, work, sizeof work);
    return refused(uplinks->chained.reason, uplinks->chained.where);
}

/* ---- printing */

static void print_places(const struct plan *plan)
{
    printf("%-20s %-7s %s\n", "place", "before", "after");
    for (int slot = OFFICE; slot < PLACES; slot++) {
        int gone = !has_slot(plan->site_after + DESK_PRESENT_AT, slot);
        printf("%-20s %-7s %s\n", places[slot].name, has_slot(plan->before, slot) ? "yes" : "no",
               gone ? "pulled" : has_slot(plan->after, slot) ? "yes" : "no");
    }
}

static void print_set(const char *when, const uint8_t *set)
{
    const char *between = "";
    printf("%s: ", when);
    for (int slot = OFFICE; slot < PLACES; slot++)
        if (has_slot(set, slot)) {
            printf("%s%s", between, places[slot].name);
            between = "; ";
        }
    printf("%s\n", *between ? "" : "none");
}

static void print_uplinks(const char *when, const struct uplinks *uplinks)
{
    if (!uplinks->chained.found) {
        printf("  %s, no chain; all that is reached", when);
        print_set("", uplinks->set);
        return;
    }
    printf("  %s, %u steps: %s", when, (unsigned)uplinks->chained.steps, places[uplinks->chain[0]].name);
    for (uint32_t step = 1; step <= uplinks->chained.steps; step++)
        printf(" > %s", places[uplinks->chain[step]].name);
    printf("\n");
}

/* Asks and prints for some places that stay. Returns 0 if no call was refused. */
static int show_uplinks(const uint8_t *before, const uint8_t *after)
{
    static const int from[] = {HAY, SEED, FAN_4};
    static struct uplinks now, then;
    for (size_t k = 0; k < sizeof from / sizeof *from; k++) {
        if (ask_uplinks(&now, before, from[k]) || ask_uplinks(&then, after, from[k]))
            return 1;
        printf("%s\n", places[from[k]].name);
        print_uplinks("before", &now);
        print_uplinks("after", &then);
    }
    return 0;
}

/* The probe is pulled. Returns 0 if no call was refused. */
static int show_pulling(const uint8_t *site)
{
    static struct plan chains, fans;
    static struct check check;
    int now = 0, again = 0;
    if (build_check(&check, &pulling) || ask_check(&check, site, &now) || ask(&chains, site, chain, sizeof chain, &pulling) ||
        ask(&fans, site, idle_fan, sizeof idle_fan, &pulling) || ask_check(&check, chains.site_after, &again))
        return 1;
    printf("To be pulled: %s\n", places[BIN_2].name);
    printf("Does that work? A condition of %u nodes says: today %s, once it is done %s\n", (unsigned)check.built.nodes,
           now ? "yes" : "no", again ? "yes" : "no");
    printf("\nAn uplink chain leads to a gateway:\n\n");
    print_places(&chains);
    printf("\n%u places before, %u after\n", (unsigned)chains.listed.count, (unsigned)chains.done.after);
    printf("rewritten to %u nodes, the condition lists %u places today: %s\n", (unsigned)chains.done.nodes, (unsigned)chains.done.today,
           memcmp(chains.after, chains.today, sizeof chains.after) == 0 ? "the same" : "OTHERS");
    printf("\nThe uplinks of some places:\n\n");
    if (show_uplinks(site, chains.site_after))
        return 1;
    printf("\nFans that no connected probe drives:\n");
    print_set("  before", fans.before);
    print_set("  after", fans.after);
    return 0;
}

/* Another probe takes a second uplink first. Returns 0 if no call was refused. */
static int show_keeping(const uint8_t *site)
{
    static struct plan chains, fans;
    static struct check first, second;
    static struct uplinks then;
    int in_1 = 0, in_2 = 0;
    if (build_check(&first, &keeping_1) || ask_check(&first, site, &in_1) || build_check(&second, &keeping_2) ||
        ask_check(&second, site, &in_2) || ask(&chains, site, chain, sizeof chain, &keeping_2) ||
        ask(&fans, site, idle_fan, sizeof idle_fan, &keeping_2) || ask_uplinks(&then, chains.site_after, SEED))
        return 1;
    printf("\nWith a second uplink first, from %s to %s:\n", places[SEED].name, places[BARN].name);
    printf("  does that work today? in edition 1 %s, in edition 2 %s\n", in_1 ? "yes" : "no", in_2 ? "yes" : "no");
    printf("  an uplink chain leads to a gateway: %u places before, %u after\n", (unsigned)chains.listed.count, (unsigned)chains.done.after);
    print_uplinks("after", &then);
    print_set("  fans that no connected probe drives, after", fans.after);
    return 0;
}

int main(void)
{
    static uint8_t site[DESK_SITE_BYTES];
    build_site(site);
    return show_pulling(site) || show_keeping(site);
}
