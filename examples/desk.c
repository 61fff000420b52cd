/* The desk called from C, on the examples of docs/SPEC.md, "A worked job" and "More examples": site A, the condition R and the job J, built
 * byte by byte. Each answer is compared with the one that the specification gives; what is the same in both editions is asked in both. The
 * program returns 1 if an answer differs. */
#include "desk.h"

#include <stdio.h>
#include <string.h>

static int differences;

static void check(const char *what, int holds)
{
    printf("%-4s %s\n", holds ? "ok" : "BAD", what);
    differences += !holds;
}

/* ---- building */

static void put_slot(uint8_t *set, int slot)
{
    set[slot / 8] |= (uint8_t)(1 << slot % 8);
}

/* Site A: slots 0 to 3 are present, label 0 is on slot 1, link 4 leads from 2 to 1 and from 3 to 2, name 1 is at 2, name 2 at 3. */
static void build_a(uint8_t *site)
{
    memset(site, 0, DESK_SITE_BYTES);
    for (int slot = 0; slot <= 3; slot++)
        put_slot(site, slot);
    put_slot(site + DESK_LABELS_AT, 1);
    site[DESK_NAMES_AT + 1] = 2;
    site[DESK_NAMES_AT + 2] = 3;
    site[DESK_TARGETS_AT + 2] = 1;
    site[DESK_TARGETS_AT + 3] = 2;
}

/* Condition R, mu 0 (label 0 or diamond 4 of variable 0): kind, parameter, left (2 bytes), right (2 bytes) */
static const uint8_t condition_r[] = {
    2,  0, 0, 0, 0, 0, /* 0: label 0 */
    4,  0, 0, 0, 0, 0, /* 1: variable 0 */
    8,  4, 1, 0, 0, 0, /* 2: diamond 4 of node 1 */
    6,  0, 0, 0, 2, 0, /* 3: node 0 or node 2 */
    10, 0, 3, 0, 0, 0, /* 4: mu 0 of node 3 */
};
static const uint8_t name_1[] = {3, 1, 0, 0, 0, 0};
static const uint8_t name_3[] = {3, 3, 0, 0, 0, 0};
static const uint8_t box_of_nothing[] = {0, 0, 0, 0, 0, 0, 5, 0, 0, 0, 0, 0, 9, 4, 1, 0, 0, 0};
static const uint8_t mu_diamond[] = {4, 0, 0, 0, 0, 0, 8, 4, 0, 0, 0, 0, 10, 0, 1, 0, 0, 0};
static const uint8_t nu_diamond[] = {4, 0, 0, 0, 0, 0, 8, 4, 0, 0, 0, 0, 11, 0, 1, 0, 0, 0};
static const uint8_t odd[] = {4, 0, 0, 0, 0, 0, 5, 0, 0, 0, 0, 0, 10, 0, 1, 0, 0, 0};
static const uint8_t even[] = {4, 0, 0, 0, 0, 0, 5, 0, 0, 0, 0, 0, 5, 0, 1, 0, 0, 0, 10, 0, 2, 0, 0, 0};

/* ---- asking */

static uint8_t site_a[DESK_SITE_BYTES];
static uint32_t edition = DESK_EDITION_1; /* of the sheets that are asked about */
static uint8_t result[DESK_SITE_BYTES], table[DESK_TABLE_BYTES], set[DESK_SET_BYTES], classes[DESK_CLASSES_BYTES], work[DESK_WORK_BYTES];
static uint8_t chain[DESK_CHAIN_BYTES];

/* Whether the condition lists exactly the slots s whose bit, of weight 2 to the power s, is in `slots`; ~slots stands for all others. */
static int lists(const uint8_t *site, const uint8_t *cond, size_t cond_len, int slots)
{
    uint8_t wanted[DESK_SET_BYTES];
    struct desk_listed r = desk_list(site, DESK_SITE_BYTES, cond, cond_len, DESK_LIMIT_MAX, set, sizeof set, work, sizeof work);
    uint32_t count = 0;
    memset(wanted, slots < 0 ? 0xff : 0, sizeof wanted);
    wanted[0] = (uint8_t)slots;
    for (int slot = 0; slot < DESK_SLOT_COUNT; slot++)
        count += wanted[slot / 8] >> slot % 8 & 1;
    return r.reason == DESK_OK && r.where == 0 && r.count == count && memcmp(set, wanted, sizeof set) == 0;
}

/* Whether the condition lists these slots on the site that the sheet leaves, and the rewritten condition lists them on A. */
static int both_list(const uint8_t *cond, size_t cond_len, const uint8_t *sheet, size_t sheet_len, int slots)
{
    struct desk_applied a = desk_apply(site_a, sizeof site_a, sheet, sheet_len, edition, result, sizeof result);
    struct desk_rewritten w = desk_rewrite(cond, cond_len, sheet, sheet_len, edition, table, sizeof table);
    return a.reason == DESK_OK && w.reason == DESK_OK && lists(result, cond, cond_len, slots) &&
           lists(site_a, table, DESK_NODE_BYTES * w.nodes, slots);
}

static uint32_t nodes(const uint8_t *cond, size_t cond_len, const uint8_t *sheet, size_t sheet_len)
{
    return desk_rewrite(cond, cond_len, sheet, sheet_len, edition, table, sizeof table).nodes;
}

/* Whether the sheet is refused because its first edit does not go through on A, and the result is all zeros. */
static int does_not_go_through(const uint8_t *sheet, size_t sheet_len)
{
    struct desk_applied r = desk_apply(site_a, sizeof site_a, sheet, sheet_len, edition, result, sizeof result);
    int zeros = 1;
    for (size_t k = 0; k < sizeof result; k++)
        zeros &= result[k] == 0;
    return r.reason == DESK_NOT_THROUGH && r.where == 0 && zeros;
}

/* Whether the condition for the sheet's going through has this many nodes and lists on A every slot, or none if the sheet does not work. It has no
 * loop, so it needs no round. */
static int through(const uint8_t *sheet, size_t sheet_len, uint32_t count, int works)
{
    uint8_t wanted[DESK_SET_BYTES];
    struct desk_rewritten t = desk_through(sheet, sheet_len, edition, table, sizeof table);
    struct desk_listed r = desk_list(site_a, sizeof site_a, table, DESK_NODE_BYTES * t.nodes, 0, set, sizeof set, work, sizeof work);
    memset(wanted, works ? 0xff : 0, sizeof wanted);
    return t.reason == DESK_OK && t.nodes == count && r.reason == DESK_OK && r.count == (works ? (uint32_t)DESK_SLOT_COUNT : 0) &&
           memcmp(set, wanted, sizeof set) == 0;
}

/* The chain on A to the slots that the condition lists. */
static struct desk_chained ask_chain(const uint8_t *cond, size_t cond_len, uint32_t way, uint32_t start)
{
    return desk_chain(site_a, sizeof site_a, cond, cond_len, way, start, chain, sizeof chain, set, sizeof set, work, sizeof work);
}

/* Whether it has these slots, of which there are one more than steps, and zeros behind; and the set is all zeros. */
static int chains(const uint8_t *cond, size_t cond_len, uint32_t way, uint32_t start, uint32_t steps, const uint8_t *slots)
{
    static const uint8_t none[DESK_SET_BYTES] = {0};
    uint8_t wanted[DESK_CHAIN_BYTES] = {0};
    struct desk_chained r = ask_chain(cond, cond_len, way, start);
    memcpy(wanted, slots, steps + 1);
    return r.reason == DESK_OK && r.where == 0 && r.found == 1 && r.steps == steps && memcmp(chain, wanted, sizeof chain) == 0 &&
           memcmp(set, none, sizeof set) == 0;
}

/* Whether there is no chain, for this reason or for none, and the set has the slots s whose bit, of weight 2 to the power s, is in `slots`. */
static int has_no_chain(const uint8_t *cond, size_t cond_len, uint32_t way, uint32_t start, uint32_t reason, uint8_t slots)
{
    static const uint8_t none[DESK_CHAIN_BYTES] = {0};
    const uint8_t wanted[DESK_SET_BYTES] = {slots};
    struct desk_chained r = ask_chain(cond, cond_len, way, start);
    return r.reason == reason && r.found == 0 && r.steps == 0 && memcmp(chain, none, sizeof chain) == 0 && memcmp(set, wanted, sizeof set) == 0;
}

/* ---- the samples */

enum { S1 = 1 << 1, S2 = 1 << 2, S3 = 1 << 3, S4 = 1 << 4 };

static void check_lists(void)
{
    check("A lists R at {1, 2, 3}", lists(site_a, condition_r, sizeof condition_r, S1 | S2 | S3));
    struct desk_listed r =
        desk_list(site_a, sizeof site_a, box_of_nothing, sizeof box_of_nothing, DESK_LIMIT_MAX, set, sizeof set, work, sizeof work);
    check("box 4 of not true: 254 slots", r.reason == DESK_OK && r.count == 254 && set[0] == 0xf3);
    r = desk_list(site_a, sizeof site_a, odd, sizeof odd, DESK_LIMIT_MAX, set, sizeof set, work, sizeof work);
    check("variable 0, not, mu 0: refused, 9, W 2", r.reason == DESK_EVEN_RULE && r.where == 2 && r.count == 0);
    check("with two nots: empty", lists(site_a, even, sizeof even, 0));
    uint8_t ring[DESK_SITE_BYTES];
    memcpy(ring, site_a, sizeof ring);
    ring[DESK_TARGETS_AT + 1] = 3;
    check("with link 4 also 1 to 3: nu 0 (diamond 4 variable 0) {1, 2, 3}", lists(ring, nu_diamond, sizeof nu_diamond, S1 | S2 | S3));
    check("with link 4 also 1 to 3: mu, none", lists(ring, mu_diamond, sizeof mu_diamond, 0));
}

/* Whether listing on A under the limit is refused with this reason, or makes so many rounds. */
static int makes(const uint8_t *cond, size_t cond_len, uint32_t limit, uint32_t reason, uint32_t rounds)
{
    struct desk_listed r = desk_list(site_a, sizeof site_a, cond, cond_len, limit, set, sizeof set, work, sizeof work);
    return r.reason == reason && r.where == 0 && r.rounds == rounds && (reason == DESK_OK || r.count == 0);
}

static void check_rounds(void)
{
    static const uint8_t mu_false[] = {0, 0, 0, 0, 0, 0, 5, 0, 0, 0, 0, 0, 10, 0, 1, 0, 0, 0};
    static const uint8_t mu_true[] = {0, 0, 0, 0, 0, 0, 10, 0, 0, 0, 0, 0};
    static const uint8_t mu_mu_true[] = {0, 0, 0, 0, 0, 0, 10, 0, 0, 0, 0, 0, 10, 1, 1, 0, 0, 0};
    static const uint8_t twice[] = {0, 0, 0, 0, 0, 0, 10, 0, 0, 0, 0, 0, 6, 0, 1, 0, 1, 0};
    check("R on A: 4 rounds", makes(condition_r, sizeof condition_r, DESK_LIMIT_MAX, DESK_OK, 4));
    check("limit 4: the same", makes(condition_r, sizeof condition_r, 4, DESK_OK, 4));
    check("limit 3: refused, 15", makes(condition_r, sizeof condition_r, 3, DESK_ROUNDS, 0));
    check("limit 1,000,001: refused, 16", makes(condition_r, sizeof condition_r, DESK_LIMIT_MAX + 1, DESK_LIMIT, 0));
    check("no loop, limit 0: 0 rounds", makes(name_1, sizeof name_1, 0, DESK_OK, 0));
    check("mu 0 (not true): 1 round", makes(mu_false, sizeof mu_false, DESK_LIMIT_MAX, DESK_OK, 1));
    check("mu 0 true: 2 rounds", makes(mu_true, sizeof mu_true, DESK_LIMIT_MAX, DESK_OK, 2));
    check("mu 1 (mu 0 true): 6 rounds", makes(mu_mu_true, sizeof mu_mu_true, DESK_LIMIT_MAX, DESK_OK, 6));
    check("or of mu 0 true with itself: 4 rounds", makes(twice, sizeof twice, DESK_LIMIT_MAX, DESK_OK, 4));
}

static void check_sheets(void)
{
    static const uint8_t dt2[] = {6, 4, 1, 0}, ds[] = {8, 1, 0, 0};
    static const uint8_t cn1_dt2[] = {0, 1, 2, 0, 6, 4, 1, 0}, dt2_cn1[] = {6, 4, 1, 0, 0, 1, 2, 0};
    static const uint8_t as_4[] = {7, 3, 4, 0}, as_3[] = {7, 3, 3, 0};
    static const uint8_t cn2_1[] = {1, 1, 1, 4}, cn2_3[] = {1, 1, 3, 4};
    check("DT2 4 1: R {1}", both_list(condition_r, sizeof condition_r, dt2, sizeof dt2, S1));
    check("DT2 4 1: R has 8 nodes", nodes(condition_r, sizeof condition_r, dt2, sizeof dt2) == 8);
    check("DS 1: R {1}", both_list(condition_r, sizeof condition_r, ds, sizeof ds, S1));
    check("DS 1: R has 14 nodes", nodes(condition_r, sizeof condition_r, ds, sizeof ds) == 14);
    check("DS 1: name 1 goes to 0", both_list(name_1, sizeof name_1, ds, sizeof ds, 1) && result[DESK_NAMES_AT + 1] == 0);
    check("CN1 1 2 then DT2 4 1: R {1, 2}", both_list(condition_r, sizeof condition_r, cn1_dt2, sizeof cn1_dt2, S1 | S2));
    check("the other order {1}", both_list(condition_r, sizeof condition_r, dt2_cn1, sizeof dt2_cn1, S1));
    check("AS 3 4: condition \"name 3\" lists {4}", both_list(name_3, sizeof name_3, as_4, sizeof as_4, S4));
    check("AS 3 3: refused, 13", does_not_go_through(as_3, sizeof as_3));
    check("CN2 1 1 4: name 1 at 1", both_list(name_1, sizeof name_1, cn2_1, sizeof cn2_1, S1) && result[DESK_NAMES_AT + 1] == 1);
    check("CN2 1 3 4: at 0", both_list(name_1, sizeof name_1, cn2_3, sizeof cn2_3, 1) && result[DESK_NAMES_AT + 1] == 0);
}

static void check_through(void)
{
    static const uint8_t dt2[] = {6, 4, 1, 0}, ds[] = {8, 1, 0, 0}, as_4[] = {7, 3, 4, 0}, as_3[] = {7, 3, 3, 0};
    static const uint8_t at_0[] = {4, 0, 1, 2}, twice[] = {8, 1, 0, 0, 8, 1, 0, 0};
    check("through no edit: 1 node, works", through(dt2, 0, 1, 1));
    check("through DT2 4 1: 1 node, works", through(dt2, sizeof dt2, 1, 1));
    check("through DS 1: 7 nodes, works", through(ds, sizeof ds, 7, 1));
    check("through DS 1 twice: 23 nodes, does not", through(twice, sizeof twice, 23, 0));
    check("through AS 3 4: 7 nodes, works", through(as_4, sizeof as_4, 7, 1));
    check("through AS 3 3: 7 nodes, does not", through(as_3, sizeof as_3, 7, 0));
    check("through AT 0 1 2: 13 nodes, works", through(at_0, sizeof at_0, 13, 1));
}

/* AT by link 4 from slot 2, which has slot 1 as its target: to slot 3, to itself, and with an end at nil. */
static const uint8_t at_12[] = {4, 4, 1, 2}, at_11[] = {4, 4, 1, 1}, at_13[] = {4, 4, 1, 3}, at_31[] = {4, 4, 3, 1};

static void check_edition_1(void)
{
    edition = DESK_EDITION_1;
    check("AT 4 1 2 in edition 1: refused, 13", does_not_go_through(at_12, sizeof at_12));
    check("AT 4 1 1 in edition 1: refused, 13", does_not_go_through(at_11, sizeof at_11));
    check("through AT 4 1 2 in edition 1: 26 nodes, does not", through(at_12, sizeof at_12, 26, 0));
    check("through AT 4 1 1 in edition 1: 26 nodes, does not", through(at_11, sizeof at_11, 26, 0));
}

/* Slot 2 is re-homed. */
static void check_edition_2(void)
{
    static const uint8_t box_4[] = {2, 0, 0, 0, 0, 0, 9, 4, 0, 0, 0, 0}, back[] = {3, 1, 0, 0, 0, 0, 8, DESK_REVERSE(4), 0, 0, 0, 0};
    static const uint8_t box_back[] = {3, 1, 0, 0, 0, 0, 9, DESK_REVERSE(4), 0, 0, 0, 0};
    edition = DESK_EDITION_2;
    check("AT 4 1 2 in edition 2: R {1}", both_list(condition_r, sizeof condition_r, at_12, sizeof at_12, S1));
    check("slot 2 leads to 3, slot 3 to 2", result[DESK_TARGET_AT(4, 2)] == 3 && result[DESK_TARGET_AT(4, 3)] == 2);
    check("R has 14 nodes", nodes(condition_r, sizeof condition_r, at_12, sizeof at_12) == 14);
    check("box 4 of label 0: all but 2 and 3", both_list(box_4, sizeof box_4, at_12, sizeof at_12, ~(S2 | S3)));
    check("it has 12 nodes", nodes(box_4, sizeof box_4, at_12, sizeof at_12) == 12);
    check("diamond 4- of name 1: {3}", both_list(back, sizeof back, at_12, sizeof at_12, S3));
    check("it has 11 nodes", nodes(back, sizeof back, at_12, sizeof at_12) == 11);
    check("box 4- of name 1: all but 2", both_list(box_back, sizeof box_back, at_12, sizeof at_12, ~S2));
    check("it has 12 nodes", nodes(box_back, sizeof box_back, at_12, sizeof at_12) == 12);
    check("through AT 4 1 2 in edition 2: 13 nodes, works", through(at_12, sizeof at_12, 13, 1));
    check("AT 4 1 1: diamond 4- of name 1 {2}", both_list(back, sizeof back, at_11, sizeof at_11, S2));
    check("AT 4 1 3: refused, 13", does_not_go_through(at_13, sizeof at_13));
    check("AT 4 3 1: refused, 13", does_not_go_through(at_31, sizeof at_31));
}

/* A probe, slot 3, has a live uplink to a relay, slot 2, which leads no further. It takes a second uplink, to the gateway, slot 1. */
static void check_second_uplink(void)
{
    static const uint8_t at_21[] = {4, 4, 2, 1};
    site_a[DESK_NAME_AT(1)] = 1;
    site_a[DESK_TARGET_AT(4, 2)] = DESK_NIL;
    check("a second uplink: R {1} before", lists(site_a, condition_r, sizeof condition_r, S1));
    edition = DESK_EDITION_1;
    check("AT 4 2 1 in edition 1: refused, 13", does_not_go_through(at_21, sizeof at_21));
    check("through it: 26 nodes, does not", through(at_21, sizeof at_21, 26, 0));
    edition = DESK_EDITION_2;
    check("AT 4 2 1 in edition 2: R {1, 3}", both_list(condition_r, sizeof condition_r, at_21, sizeof at_21, S1 | S3));
    check("the probe's uplink is slot 1", result[DESK_TARGET_AT(4, 3)] == 1);
    check("R has 14 nodes", nodes(condition_r, sizeof condition_r, at_21, sizeof at_21) == 14);
    check("through it: 13 nodes, works", through(at_21, sizeof at_21, 13, 1));
    build_a(site_a);
}

static void check_chains(void)
{
    static const uint8_t label_0[] = {2, 0, 0, 0, 0, 0}, label_1[] = {2, 1, 0, 0, 0, 0}, name_0[] = {3, 0, 0, 0, 0, 0}, name_2[] = {3, 2, 0, 0, 0, 0};
    static const uint8_t down[] = {3, 2, 1}, up[] = {1, 2, 3}, nil[] = {0};
    check("link 4 from 3 to label 0: 2 steps, 3 2 1", chains(label_0, sizeof label_0, 4, 3, 2, down));
    check("from 1: 0 steps", chains(label_0, sizeof label_0, 4, 1, 0, up));
    check("from 3 to R: 0 steps, since R lists 3", chains(condition_r, sizeof condition_r, 4, 3, 0, down));
    check("against link 4 from 1 to name 2: 2 steps, 1 2 3", chains(name_2, sizeof name_2, DESK_REVERSE(4), 1, 2, up));
    check("link 4 from 2 to name 2: none, {1, 2}", has_no_chain(name_2, sizeof name_2, 4, 2, DESK_OK, S1 | S2));
    check("to label 1, which no slot has, from 3: none, {1, 2, 3}", has_no_chain(label_1, sizeof label_1, 4, 3, DESK_OK, S1 | S2 | S3));
    check("link 5, which A does not have, from 3: none, {3}", has_no_chain(label_0, sizeof label_0, 5, 3, DESK_OK, S3));
    check("from 0 to name 0: 0 steps", chains(name_0, sizeof name_0, 4, 0, 0, nil));
    check("from 0 to label 0: none, {0}", has_no_chain(label_0, sizeof label_0, 4, 0, DESK_OK, 1));
    check("from 4, which is absent: refused, 17", has_no_chain(label_0, sizeof label_0, 4, 4, DESK_START, 0));
    check("from 256: refused, 17", has_no_chain(label_0, sizeof label_0, 4, DESK_SLOT_COUNT, DESK_START, 0));
    check("everywhere: refused, 17", has_no_chain(label_0, sizeof label_0, DESK_EVERYWHERE, 3, DESK_START, 0));
    check("the same with variable 0, not, mu 0: refused, 9", has_no_chain(odd, sizeof odd, DESK_EVERYWHERE, 3, DESK_EVEN_RULE, 0));
}

static void check_classes(void)
{
    uint8_t site[DESK_SITE_BYTES];
    struct desk_classed r = desk_classes(site_a, sizeof site_a, classes, sizeof classes);
    check("A: slots 0 to 3 apart, absent slots 4", r.reason == DESK_OK && r.count == 5 && classes[0] == 0 && classes[1] == 1 &&
                                                       classes[2] == 2 && classes[3] == 3 && classes[4] == 4 && classes[255] == 4);
    memcpy(site, site_a, sizeof site);
    for (int slot = 4; slot <= 5; slot++) {
        put_slot(site, slot);
        site[DESK_TARGETS_AT + slot] = 1;
    }
    r = desk_classes(site, sizeof site, classes, sizeof classes);
    check("A with 4 and 5 present, link 4 to 1 from both: both class 4", r.reason == DESK_OK && classes[4] == 4 && classes[5] == 4);
    check("absent slots 6", classes[6] == 6 && classes[255] == 6 && r.count == 6);
}

/* A with names 8 to 47 at slot 2 too. The last of them moves alone; when the slot goes, all of them go to nil. */
static void check_names(void)
{
    enum { LAST = DESK_NAME_COUNT - 1, BYTES_FOR_16 = DESK_SITE_BYTES - (DESK_NAME_COUNT - 16) };
    static const uint8_t last[] = {3, LAST, 0, 0, 0, 0}, cn1[] = {0, LAST, 2, 0}, ds[] = {8, LAST, 0, 0};
    uint8_t site[DESK_SITE_BYTES];
    memcpy(site, site_a, sizeof site);
    memset(site + DESK_NAME_AT(8), 2, DESK_NAME_COUNT - 8);
    struct desk_applied r = desk_apply(site, sizeof site, cn1, sizeof cn1, edition, result, sizeof result);
    check("A with names 8 to 47 at 2, CN1 47 2: name 47 at 3, name 46 at 2",
          r.reason == DESK_OK && result[DESK_NAME_AT(LAST)] == 3 && result[DESK_NAME_AT(LAST - 1)] == 2);
    check("condition \"name 47\" lists {3}", lists(result, last, sizeof last, S3));
    r = desk_apply(site, sizeof site, ds, sizeof ds, edition, result, sizeof result);
    check("DS 47: names 8 and 47 at 0", r.reason == DESK_OK && result[DESK_NAME_AT(8)] == 0 && result[DESK_NAME_AT(LAST)] == 0);
    r = desk_apply(site, BYTES_FOR_16, ds, sizeof ds, edition, result, sizeof result);
    check("34,352 bytes, a site for 16 names: refused, 3", r.reason == DESK_SITE_LENGTH && r.where == 0);
}

/* ---- the job */

static void put_number(uint8_t *at, uint32_t number)
{
    for (int k = 0; k < DESK_NUMBER_BYTES; k++)
        at[k] = (uint8_t)(number >> 8 * k);
}

static uint8_t today[DESK_SET_BYTES];

/* The job of A, the condition and the sheet: its pieces with a trailer behind them. */
static struct desk_done run(const uint8_t *cond, size_t cond_len, const uint8_t *sheet, size_t sheet_len, uint32_t limit)
{
    static uint8_t file[DESK_FILE_BYTES_MAX];
    uint8_t *cond_at = file + DESK_SITE_BYTES, *sheet_at = cond_at + cond_len, *trailer = sheet_at + sheet_len;
    memcpy(file, site_a, sizeof site_a);
    memcpy(cond_at, cond, cond_len);
    memcpy(sheet_at, sheet, sheet_len);
    put_number(trailer + DESK_TO_SHEET_AT, (uint32_t)(trailer - sheet_at));
    put_number(trailer + DESK_TO_CONDITION_AT, (uint32_t)(trailer - cond_at));
    put_number(trailer + DESK_TO_SITE_AT, (uint32_t)(trailer - file));
    put_number(trailer + DESK_EDITION_AT, edition);
    return desk_job(file, (size_t)(trailer - file) + DESK_TRAILER_BYTES, limit, result, sizeof result, table, sizeof table, set, sizeof set,
                    today, sizeof today, classes, sizeof classes, work, sizeof work);
}

static void check_job(void)
{
    static const uint8_t dt2[] = {6, 4, 1, 0}, only_1[DESK_SET_BYTES] = {S1};
    struct desk_done r = run(condition_r, sizeof condition_r, dt2, sizeof dt2, DESK_LIMIT_MAX);
    check("J: accepted", r.reason == DESK_OK && r.where == 0);
    check("J: after {1}", r.after == 1 && memcmp(set, only_1, sizeof set) == 0);
    check("J: rewritten {1}", r.today == 1 && memcmp(today, only_1, sizeof today) == 0);
    check("J: 8 nodes", r.nodes == 8);
    check("J: 5 classes", r.classes == 5);
    check("J: 2 rounds for each list", r.after_rounds == 2 && r.today_rounds == 2);
    check("J: the link from 2 is gone, the one from 3 stays", result[DESK_TARGETS_AT + 2] == 0 && result[DESK_TARGETS_AT + 3] == 2);
    r = run(condition_r, sizeof condition_r, dt2, sizeof dt2, 1);
    check("J, limit 1: refused, 15", r.reason == DESK_ROUNDS && r.where == 0 && r.nodes == 0 && table[0] == 0 && result[0] == 0);
}

/* DT1 puts what is below the diamond on two paths, so that the second list makes twice the rounds. */
static void check_job_rounds(void)
{
    static const uint8_t dt1[] = {5, 4, 2, 1}, diamond[] = {8, 4, 4, 0, 0, 0}, only_2[DESK_SET_BYTES] = {S2};
    uint8_t cond[sizeof condition_r + sizeof diamond];
    memcpy(cond, condition_r, sizeof condition_r);
    memcpy(cond + sizeof condition_r, diamond, sizeof diamond);
    struct desk_done r = run(cond, sizeof cond, dt1, sizeof dt1, 6);
    check("diamond 4 of R, DT1 4 2 1: {2}, 22 nodes", r.reason == DESK_OK && r.nodes == 22 && memcmp(today, only_2, sizeof today) == 0);
    check("3 rounds after, 6 today; limit 6 is enough for each", r.after_rounds == 3 && r.today_rounds == 6);
    r = run(cond, sizeof cond, dt1, sizeof dt1, 5);
    check("limit 5: refused, 15", r.reason == DESK_ROUNDS && r.after_rounds == 0 && r.today_rounds == 0);
}

/* Beside a sheet and in a file; nothing is given. */
static void check_unknown_editions(void)
{
    static const uint32_t numbers[] = {0, 3, 257, UINT32_MAX};
    static const uint8_t dt2[] = {6, 4, 1, 0};
    int refused = 1;
    for (size_t k = 0; k < sizeof numbers / sizeof *numbers; k++) {
        edition = numbers[k];
        struct desk_applied a = desk_apply(site_a, sizeof site_a, dt2, sizeof dt2, edition, result, sizeof result);
        struct desk_rewritten w = desk_rewrite(condition_r, sizeof condition_r, dt2, sizeof dt2, edition, table, sizeof table);
        refused &= a.reason == DESK_EDITION && a.where == 0 && result[0] == 0 && w.reason == DESK_EDITION && w.nodes == 0;
        w = desk_through(dt2, sizeof dt2, edition, table, sizeof table);
        struct desk_done r = run(condition_r, sizeof condition_r, dt2, sizeof dt2, DESK_LIMIT_MAX);
        refused &= w.reason == DESK_EDITION && w.nodes == 0 && r.reason == DESK_EDITION && r.where == 0 && r.nodes == 0 && result[0] == 0;
    }
    check("editions 0, 3, 257 and 4,294,967,295: refused, 18", refused);
}

int main(void)
{
    build_a(site_a);
    check_lists();
    check_rounds();
    check_chains();
    check_classes();
    for (edition = DESK_EDITION_1; edition <= DESK_EDITION_2; edition++) {
        printf("in edition %u\n", (unsigned)edition);
        check_sheets();
        check_through();
        check_names();
        check_job();
        check_job_rounds();
    }
    check_edition_1();
    check_edition_2();
    check_second_uplink();
    check_unknown_editions();
    return differences != 0;
}
