/* Compares the library with the oracle on random and damaged jobs: `desk_test [JOBS [SEED]]`.
 *
 * Each job goes through desk_job, its pieces through the other six functions, and once more through one of the seven with each buffer in
 * turn a byte short or a byte long, and with buffers of other wrong lengths. Results, counts, reasons and W are compared, and every byte
 * of every buffer; buffers are filled with 0xAA before, inputs must stay as they are, and the memory after each input and buffer may not
 * be touched. Listing and the job get limits about the rounds that they make, and then a larger one, under which nothing may change. The condition
 * for a sheet's going through is listed on the job's site, and applying has to agree with it. Each sheet is asked about in both editions: without
 * AT on links 4 to 7 no byte may differ, and where edition 1 goes through, edition 2 has to leave the same site. Chains are asked for by several ways
 * from several starts, and also on sites that have long ones; all chains are tried where they are few, and the list of mu 15 (goal or diamond of
 * variable 15) has to agree. The first difference ends the run with 1, and so does something that so many jobs should have met and have not. */
#define _DEFAULT_SOURCE
#include "random_jobs.h"

#include <pthread.h>
#include <stdio.h>
#include <stdlib.h>
#include <string.h>
#include <sys/mman.h>

static uint64_t seed;
static int job = -1;                      /* below 0: a case with a known answer */
static uint32_t limit = DESK_LIMIT_MAX;   /* on the rounds of a list, for listing and the job */
static uint32_t larger = DESK_LIMIT_MAX;  /* another one, if there is a larger one */
static uint32_t chain_way = 4;            /* the way and the start of a chain */
static uint32_t chain_start = 1;

static void fail(const char *function, const char *what)
{
    printf("desk_test: %s: %s differs, seed %llu, job %d\n", function, what, (unsigned long long)seed, job);
    exit(1);
}

/* ---- memory whose end is the end of a page, with a page after it that may not be touched */

enum { PAGE = 4096, ROOM = 20 * PAGE, FRONT = 64, INPUTS_MOST = 3, BUFFERS_MOST = 6, AREAS = INPUTS_MOST + BUFFERS_MOST };

static uint8_t *areas[AREAS];

static void make_areas(void)
{
    for (int k = 0; k < AREAS; k++) {
        areas[k] = mmap(NULL, ROOM + PAGE, PROT_READ | PROT_WRITE, MAP_PRIVATE | MAP_ANONYMOUS, -1, 0);
        if (areas[k] == MAP_FAILED || mprotect(areas[k] + ROOM, PAGE, PROT_NONE) != 0) {
            perror("desk_test: mmap");
            exit(2);
        }
    }
}

struct input {
    const struct bytes *from;
    const uint8_t *at;
};

static struct input lend(int area, const struct bytes *from)
{
    uint8_t *at = areas[area] + ROOM - from->length;
    memcpy(at, from->at, from->length);
    return (struct input){from, at};
}

/* A buffer of the library, and the oracle's beside it. */
struct buffer {
    size_t length;
    uint8_t *at, oracle[DESK_WORK_BYTES + 1];
};

static struct buffer buffers[BUFFERS_MOST];

static void open_buffer(int number, size_t length)
{
    struct buffer *b = &buffers[number];
    b->length = length;
    b->at = areas[INPUTS_MOST + number] + ROOM - length;
    memset(b->at - FRONT, 0x55, FRONT);
    memset(b->at, 0xaa, length);
    memset(b->oracle, 0xaa, length);
}

/* The library's buffers for another call; the oracle's keep what they have. */
static void refill_buffers(int count)
{
    for (int k = 0; k < count; k++)
        memset(buffers[k].at, 0xaa, buffers[k].length);
}

static bool all_zero(const uint8_t *at, size_t length)
{
    return length == 0 || (at[0] == 0 && memcmp(at, at + 1, length - 1) == 0);
}

static bool has_slot(const uint8_t *set, int slot)
{
    return set[slot / 8] >> slot % 8 & 1;
}

static void check_buffers(const char *function, int count, uint32_t reason, int work)
{
    for (int k = 0; k < count; k++) {
        const struct buffer *b = &buffers[k];
        if (memcmp(b->at, b->oracle, b->length) != 0)
            fail(function, "a buffer");
        if ((reason != 0 || k == work) && !all_zero(b->at, b->length))
            fail(function, "a zero");
        for (int i = 1; i <= FRONT; i++)
            if (b->at[-i] != 0x55)
                fail(function, "the memory before a buffer");
    }
}

static void check_input(const char *function, struct input input)
{
    if (memcmp(input.at, input.from->at, input.from->length) != 0)
        fail(function, "an input");
}

static void check_numbers(const char *function, const void *one, const void *other, size_t length)
{
    if (memcmp(one, other, length) == 0)
        return;
    const uint32_t *ours = one, *theirs = other;
    for (size_t k = 0; k < length / sizeof *ours; k++)
        printf("%s: number %zu: library %u, oracle %u\n", function, k, ours[k], theirs[k]);
    fail(function, "the answer");
}

/* ---- what the jobs have met */

enum { LIST, APPLY, REWRITE, CLASSES, JOB, THROUGH, CHAIN, ENTRIES };
enum { BUFFERS = 15 };
enum { AT_NIL, ALONE, SHARED, PLACES };    /* where a name is: at nil, at a slot of its own, with other names */
enum { HIGH = LABELS };                    /* the first name whose number no label has, nor a variable: there are as many */
enum { MARKED, UNMARKED, ASKED, EFFECTS }; /* AP: the name is on site; it is at nil; and then the condition has the label, too */
enum { NIL_ALONE, ABSENT, STRAYS };        /* where labels are that may not be: on slot 0 alone, or on absent slots */
enum { WITHIN, EQUAL, OVER_BY_ONE, FAR_OVER, STANDINGS };       /* how the rounds of a list, one at least, stand to the limit */
enum { BOTH_OVER, TODAY_OVER, SUM_OVER, TODAY_EQUAL, SHAREDS }; /* which of a job's lists are over the limit, or just within it */

/* What a chain is: the start alone; of a step or more; long; one of several with as few steps; past a lower neighbour, which would cost more. A set:
 * the start alone, or more slots. And from slot 0, a chain or a set. */
enum { NO_STEP, STEPS, LONG, TIED, PASSED_BY, STAYED, ENCLOSED, NIL_FOUND, NIL_STAYED, OUTCOMES };
enum { LONG_FROM = 8, LONGEST = 17 };                           /* steps; so many or more are counted together */
enum { BY_E, BY_WAY, BY_NUMBER, BY_ABSENCE, STARTS };           /* why item 17 is met, if for one cause alone: the way is E, or over E; the start
                                                                 * is over 255, or absent */

/* What AT of edition 2 finds on links 4 to 7: no target; the same one; another one, so that it re-homes the slot, to a third slot or to itself; and
 * one to which an edit before it has re-homed the slot. */
enum { NO_TARGET, SAME_TARGET, OTHER_TARGET, TO_ITSELF, AGAIN, TARGETS };

/* How the two editions of a sheet compare: no AT on links 4 to 7; with it, the same site, only edition 2 goes through, or neither does. */
enum { ALIKE, SAME_SITE, SECOND_ALONE, NEITHER, COMPARISONS };
enum { BOTH_WAYS = 2 * FUNCTIONAL };                            /* ways 4 to 7, and their reverses */

static struct {
    unsigned long reasons[ENTRIES][REASONS];
    unsigned long kinds[KINDS], diamonds[WAYS], boxes[WAYS]; /* nodes that an accepted condition's last node reaches */
    unsigned long names[NAMES];                              /* and those that are names, by their number */
    unsigned long operands[NAMES];                           /* operands that are names, of sheets that went through */
    unsigned long places[PLACES];                            /* accepted sites with a name from 16 on there */
    unsigned long rewritten[OPERATIONS];                     /* edits that an accepted condition was rewritten through */
    unsigned long through[OPERATIONS], stuck[OPERATIONS];    /* edits that went through, and that did not */
    unsigned long effects[EFFECTS];                          /* AP of sheets that went through */
    unsigned long strays[STRAYS];                            /* sites refused for a label */
    unsigned long shorter[BUFFERS], longer[BUFFERS];         /* calls with this buffer a byte short, a byte long */
    unsigned long listed;                                    /* lists that are not empty */
    unsigned long works[2];                                  /* sheets whose condition listed no slot, and every slot */
    unsigned long standings[STANDINGS];                      /* accepted conditions */
    unsigned long shareds[SHAREDS];                          /* jobs that items 2 to 14 accept */
    unsigned long walked;                                    /* lists with rounds whose tree was walked */
    unsigned long larger[2];                                 /* refusals and answers that were the same under a larger limit */
    unsigned long outcomes[OUTCOMES], starts[STARTS];        /* of chains */
    unsigned long lengths[LONGEST + 1];                      /* chains with so many steps */
    unsigned long chain_ways[EVERYWHERE];                    /* chains of a step or more */
    unsigned long set_ways[EVERYWHERE];                      /* sets with more than the start */
    unsigned long tried[2];                                  /* sets and chains that trying all chains gave too */
    unsigned long exact[2];                                  /* and with which the list of the loop agreed */
    unsigned long targets[TARGETS];                          /* of sheets that went through */
    unsigned long over[2][BOTH_WAYS];                        /* diamonds and boxes over a link by which a slot is re-homed, in jobs that were done */
    unsigned long editions[COMPARISONS];                     /* sheets in both editions */
    unsigned long sheets[2][2];                              /* sheets that did not go through, and that did, in each edition */
} met;

/* Each node that the last one of the condition reaches. */
static void for_reached(void (*meet)(const uint8_t *node))
{
    static bool reached[DESK_NODES_MAX];
    int count = (int)cond.length / DESK_NODE_BYTES;
    memset(reached, 0, sizeof reached);
    reached[count - 1] = true;
    for (int i = count - 1; i >= 0; i--) {
        const uint8_t *node = cond.at + DESK_NODE_BYTES * i;
        if (!reached[i])
            continue;
        meet(node);
        if (children(node[0]) >= 1)
            reached[node[2] + 256 * node[3]] = true;
        if (children(node[0]) == 2)
            reached[node[4] + 256 * node[5]] = true;
    }
}

static void meet_node(const uint8_t *node)
{
    met.kinds[node[0]]++;
    if (node[0] == NAME)
        met.names[node[1]]++;
    if (node[0] == DIAMOND)
        met.diamonds[node[1]]++;
    if (node[0] == BOX)
        met.boxes[node[1]]++;
}

static void meet_edits(unsigned long *operations, size_t count)
{
    for (size_t k = 0; k < count; k++)
        operations[sheet.at[DESK_EDIT_BYTES * k]]++;
}

/* As the oracle's own table of operands has it. */
static bool is_name(int operation, int operand)
{
    return operands[operation][operand] == 'n' || operands[operation][operand] == 'N';
}

static void meet_operands(void)
{
    for (size_t k = 0; k < sheet.length; k += DESK_EDIT_BYTES)
        for (int operand = 0; operand < 3; operand++)
            if (is_name(sheet.at[k], operand))
                met.operands[sheet.at[k + 1 + (size_t)operand]]++;
}

static void meet_places(void)
{
    const uint8_t *names = site.at + NAMES_AT;
    int counts[SLOTS] = {0};
    bool there[PLACES] = {false};
    for (int n = 0; n < NAMES; n++)
        counts[names[n]]++;
    for (int n = HIGH; n < NAMES; n++)
        there[names[n] == DESK_NIL ? AT_NIL : counts[names[n]] == 1 ? ALONE : SHARED] = true;
    for (int k = 0; k < PLACES; k++)
        met.places[k] += there[k];
}

static bool has_label(int label)
{
    for (size_t k = 0; k + 1 < cond.length; k += DESK_NODE_BYTES)
        if (cond.at[k] == LABEL && cond.at[k + 1] == label)
            return true;
    return false;
}

static void meet_mark(const struct model *model, const uint8_t *edit)
{
    if (edit[0] == AP && model->name[edit[1]] == DESK_NIL) {
        met.effects[UNMARKED]++;
        met.effects[ASKED] += has_label(edit[2]);
    } else if (edit[0] == AP) {
        met.effects[MARKED]++;
    }
}

/* What the last sheet that went through has re-homed: by which links, and which slots. */
static struct {
    bool link[LINKS], slot[LINKS][SLOTS];
} rehomed;

static bool is_functional_at(const uint8_t *edit)
{
    return edit[0] == AT && edit[1] >= GENERAL;
}

static void meet_target(const struct model *model, const uint8_t *edit)
{
    if (edition != DESK_EDITION_2 || !is_functional_at(edit))
        return;
    const int link = edit[1], from = model->name[edit[2]], to = model->name[edit[3]], old = model_target(model, link, from);
    const bool rehomes = old != DESK_NIL && old != to;
    met.targets[NO_TARGET] += old == DESK_NIL;
    met.targets[SAME_TARGET] += old == to;
    met.targets[OTHER_TARGET] += rehomes && to != from;
    met.targets[TO_ITSELF] += rehomes && to == from;
    met.targets[AGAIN] += rehomes && rehomed.slot[link][from];
    rehomed.slot[link][from] |= rehomes;
    rehomed.link[link] |= rehomes;
}

static void meet_over(const uint8_t *node)
{
    const int link = node[1] % LINKS;
    if ((node[0] == DIAMOND || node[0] == BOX) && node[1] != EVERYWHERE && rehomed.link[link])
        met.over[node[0] == BOX][link - GENERAL + (node[1] < LINKS ? 0 : FUNCTIONAL)]++;
}

/* From edit to edit, since names and links move. */
static void meet_effects(void)
{
    static struct model model;
    model_read(&model, site.at);
    memset(&rehomed, 0, sizeof rehomed);
    for (size_t k = 0; k < sheet.length; k += DESK_EDIT_BYTES) {
        meet_mark(&model, sheet.at + k);
        meet_target(&model, sheet.at + k);
        model_edit(&model, sheet.at + k, edition);
    }
}

static void meet_strays(void)
{
    bool absent = false;
    for (int k = 0; k < LABELS * DESK_SET_BYTES; k++)
        absent |= (site.at[LABELS_AT + k] & ~site.at[k % DESK_SET_BYTES]) != 0;
    met.strays[absent ? ABSENT : NIL_ALONE]++;
}

/* ---- limits */

static uint32_t least(uint32_t one, uint32_t other)
{
    return one < other ? one : other;
}

/* A limit for a list that makes so many rounds: about them for the most part, and sometimes too high. */
static uint32_t some_limit(uint32_t rounds)
{
    switch (below(8)) {
    case 0:
        return DESK_LIMIT_MAX;
    case 1:
        return one_in(2) ? DESK_LIMIT_MAX + 1 : (uint32_t)below(1 << 30) * 4 + 3;
    case 2:
        return (uint32_t)below(rounds < 4 ? 4 : (int)least(2 * rounds, DESK_LIMIT_MAX));
    case 3:
        return least(rounds + (uint32_t)below(3), DESK_LIMIT_MAX);
    case 4:
    case 5:
        return rounds == 0 ? 0 : least(rounds - 1, DESK_LIMIT_MAX);
    default:
        return least(rounds, DESK_LIMIT_MAX);
    }
}

static void set_limit(uint32_t rounds)
{
    limit = larger = some_limit(rounds);
    const uint32_t room = limit < DESK_LIMIT_MAX ? DESK_LIMIT_MAX - limit : 0;
    if (room > 0)
        larger += 1 + (uint32_t)below((int)(one_in(2) ? least(3, room) : room));
}

static void meet_standing(uint32_t rounds)
{
    if (rounds > 0 && limit <= DESK_LIMIT_MAX)
        met.standings[rounds < limit ? WITHIN : rounds == limit ? EQUAL : rounds == limit + 1 ? OVER_BY_ONE : FAR_OVER]++;
}

/* Rewriting takes no path away, so that today's list never has fewer rounds. */
static void meet_shared(uint32_t after, uint32_t today)
{
    if (after > today)
        fail("desk_job", "the order of the rounds");
    if (limit > DESK_LIMIT_MAX)
        return;
    met.shareds[BOTH_OVER] += after > limit;
    met.shareds[TODAY_OVER] += after <= limit && today > limit;
    met.shareds[SUM_OVER] += today <= limit && after + today > limit;
    met.shareds[TODAY_EQUAL] += today == limit && after < today;
}

/* The list and its rounds by a walk over the tree. */
static void check_walk(const struct desk_listed *listed)
{
    uint8_t set[DESK_SET_BYTES];
    uint32_t rounds;
    const bool walked = oracle_walk(site.at, cond.at, cond.length, set, &rounds);
    if (walked && (rounds != listed->rounds || memcmp(set, buffers[0].oracle, sizeof set) != 0))
        fail("oracle_walk", "the list or its rounds");
    met.walked += walked && listed->rounds > 0;
}

/* ---- what holds of a chain and of the set in its place, beside the oracle */

/* Whether the way of the chain leads from one slot to the other, by the bytes of the site. */
static bool leads(int from, int to)
{
    const int link = (int)chain_way % LINKS, back = chain_way >= LINKS, a = back ? to : from, b = back ? from : to;
    return link < GENERAL ? has_slot(site.at + row_at(link, a), b) : b != DESK_NIL && site.at[target_at(link, a)] == b;
}

/* From the start by steps of the way to the first slot that the goal lists, and zeros behind it. */
static bool is_chain(const uint8_t *chain, uint32_t steps, const uint8_t *goal)
{
    bool right = chain[0] == chain_start && steps < SLOTS - 1 && has_slot(goal, chain[steps]);
    for (uint32_t n = 0; right && n < steps; n++)
        right = leads(chain[n], chain[n + 1]) && !has_slot(goal, chain[n]);
    return right && all_zero(chain + steps + 1, DESK_CHAIN_BYTES - steps - 1);
}

/* The start is in it, all neighbours by the way are, and no slot that the goal lists is. */
static bool is_closed(const uint8_t *set, const uint8_t *goal)
{
    bool right = has_slot(set, (int)chain_start);
    for (int s = 0; s < SLOTS; s++)
        for (int t = 0; has_slot(set, s) && t < SLOTS; t++)
            right &= !has_slot(goal, s) && (!leads(s, t) || has_slot(set, t));
    return right;
}

/* Mu 15 (goal or diamond of variable 15) lists the start exactly if there is a chain. By the library's own lists, so that a mistake that the oracle
 * shares shows too; nothing is said where the table is too long or a list takes too many rounds. */
static void check_exact(const struct desk_chained *r, const uint8_t *chain, const uint8_t *set)
{
    static uint8_t goal[DESK_SET_BYTES], reach[DESK_SET_BYTES], work[DESK_WORK_BYTES];
    const size_t length = cond.length;
    const int last = (int)length / DESK_NODE_BYTES - 1;
    struct desk_listed one = desk_list(site.at, site.length, cond.at, cond.length, DESK_LIMIT_MAX, goal, sizeof goal, work, sizeof work);
    if (one.reason == DESK_OK && !(r->found ? is_chain(chain, r->steps, goal) : is_closed(set, goal)))
        fail("desk_chain", "what a chain or a set has to be");
    if (last + 4 >= DESK_NODES_MAX)
        return;
    add_node(VARIABLE, 15, 0, 0);
    add_node(DIAMOND, (int)chain_way, last + 1, 0);
    add_node(OR, 0, last, last + 2);
    add_node(MU, 15, last + 3, 0);
    struct desk_listed two = desk_list(site.at, site.length, cond.at, cond.length, DESK_LIMIT_MAX, reach, sizeof reach, work, sizeof work);
    cond.length = length;
    if (two.reason != DESK_ROUNDS && (two.reason != DESK_OK || has_slot(reach, (int)chain_start) != r->found))
        fail("desk_chain", "the list of the loop from the chain");
    met.exact[r->found] += two.reason == DESK_OK;
}

/* The chain from the second slot is the rest of the chain. */
static void check_rest(const struct desk_chained *r, const uint8_t *chain)
{
    static uint8_t rest[DESK_CHAIN_BYTES], set[DESK_SET_BYTES], work[DESK_WORK_BYTES];
    if (r->steps == 0)
        return;
    struct desk_chained next = desk_chain(site.at, site.length, cond.at, cond.length, chain_way, chain[1], rest, sizeof rest, set, sizeof set,
                                          work, sizeof work);
    if (next.reason != DESK_OK || next.found != 1 || next.steps != r->steps - 1 || memcmp(rest, chain + 1, sizeof rest - 1) != 0)
        fail("desk_chain", "the rest of a chain");
}

/* By trying all chains; gives how many are as short as the one that is given, 0 where they are too many to try. */
static uint32_t check_tried(const struct desk_chained *r, const uint8_t *chain, const uint8_t *set)
{
    static struct tried tried;
    if (!oracle_try_chains(site.at, cond.at, cond.length, chain_way, chain_start, &tried))
        return 0;
    if (tried.found != r->found || tried.steps != r->steps || memcmp(tried.chain, chain, sizeof tried.chain) != 0 ||
        memcmp(tried.set, set, sizeof tried.set) != 0)
        fail("oracle_try_chains", "the chain or the set");
    met.tried[r->found]++;
    return tried.ties;
}

static bool passes_by(const uint8_t *chain, uint32_t steps)
{
    for (uint32_t n = 0; n < steps; n++)
        for (int t = 0; t < chain[n + 1]; t++)
            if (leads(chain[n], t))
                return true;
    return false;
}

static void meet_chain(const struct desk_chained *r, const uint8_t *chain, const uint8_t *set, uint32_t ties)
{
    uint8_t alone[DESK_SET_BYTES] = {0};
    put_slot(alone, (int)chain_start);
    const bool more = !r->found && memcmp(set, alone, sizeof alone) != 0;
    met.outcomes[NO_STEP] += r->found && r->steps == 0;
    met.outcomes[STEPS] += r->steps > 0;
    met.outcomes[LONG] += r->steps >= LONG_FROM;
    met.outcomes[TIED] += ties > 1;
    met.outcomes[PASSED_BY] += passes_by(chain, r->steps);
    met.outcomes[STAYED] += !r->found && !more;
    met.outcomes[ENCLOSED] += more;
    if (chain_start == DESK_NIL)
        met.outcomes[r->found ? NIL_FOUND : NIL_STAYED]++;
    if (r->found)
        met.lengths[least(r->steps, LONGEST)]++;
    met.chain_ways[chain_way] += r->steps > 0;
    met.set_ways[chain_way] += more;
}

static void meet_start(void)
{
    const bool by_way = chain_way >= EVERYWHERE, by_number = chain_start >= SLOTS, by_absence = !by_number && !has_slot(site.at, (int)chain_start);
    if (by_way + by_number + by_absence == 1)
        met.starts[by_absence ? BY_ABSENCE : by_number ? BY_NUMBER : chain_way == EVERYWHERE ? BY_E : BY_WAY]++;
}

/* ---- the calls: each gives its reason */

#define BUFFER(k) buffers[k].at, buffers[k].length
#define ORACLE(k) buffers[k].oracle, buffers[k].length
#define INPUT(i) (i).at, (i).from->length

/* A refusal for the rounds, or for the limit itself, may be another answer under another limit; nothing else may. */
static bool stays(uint32_t reason)
{
    met.larger[reason == DESK_OK] += limit < larger && reason != DESK_ROUNDS;
    return limit < larger && reason != DESK_ROUNDS;
}

static uint32_t try_list(const size_t *lengths)
{
    struct input a = lend(0, &site), b = lend(1, &cond);
    for (int k = 0; k < 2; k++)
        open_buffer(k, lengths[k]);
    struct desk_listed one = desk_list(INPUT(a), INPUT(b), limit, BUFFER(0), BUFFER(1));
    struct desk_listed other = oracle_list(INPUT(a), INPUT(b), limit, ORACLE(0), ORACLE(1));
    check_numbers("desk_list", &one, &other, sizeof one);
    check_buffers("desk_list", 2, other.reason, 1);
    if (stays(other.reason)) {
        refill_buffers(2);
        one = desk_list(INPUT(a), INPUT(b), larger, BUFFER(0), BUFFER(1));
        check_numbers("desk_list under a larger limit", &one, &other, sizeof one);
        check_buffers("desk_list under a larger limit", 2, other.reason, 1);
    }
    check_input("desk_list", a);
    check_input("desk_list", b);
    if (other.reason == DESK_OK) {
        for_reached(meet_node);
        check_walk(&other);
    }
    met.listed += other.count != 0;
    return other.reason;
}

static uint32_t try_apply(const size_t *lengths)
{
    struct input a = lend(0, &site), b = lend(1, &sheet);
    open_buffer(0, lengths[0]);
    struct desk_applied one = desk_apply(INPUT(a), INPUT(b), edition, BUFFER(0));
    struct desk_applied other = oracle_apply(INPUT(a), INPUT(b), edition, ORACLE(0));
    check_numbers("desk_apply", &one, &other, sizeof one);
    check_buffers("desk_apply", 1, other.reason, -1);
    check_input("desk_apply", a);
    check_input("desk_apply", b);
    if (other.reason == DESK_OK || other.reason == DESK_NOT_THROUGH)
        met.sheets[other.reason == DESK_OK][edition == DESK_EDITION_2]++;
    if (other.reason == DESK_OK) {
        meet_edits(met.through, sheet.length / DESK_EDIT_BYTES);
        meet_operands();
        meet_effects();
    }
    if (other.reason == DESK_NOT_THROUGH)
        met.stuck[sheet.at[DESK_EDIT_BYTES * other.where]]++;
    return other.reason;
}

static uint32_t try_rewrite(const size_t *lengths)
{
    struct input a = lend(0, &cond), b = lend(1, &sheet);
    open_buffer(0, lengths[0]);
    struct desk_rewritten one = desk_rewrite(INPUT(a), INPUT(b), edition, BUFFER(0));
    struct desk_rewritten other = oracle_rewrite(INPUT(a), INPUT(b), edition, ORACLE(0));
    check_numbers("desk_rewrite", &one, &other, sizeof one);
    check_buffers("desk_rewrite", 1, other.reason, -1);
    check_input("desk_rewrite", a);
    check_input("desk_rewrite", b);
    if (other.reason == DESK_OK)
        meet_edits(met.rewritten, sheet.length / DESK_EDIT_BYTES);
    return other.reason;
}

static uint32_t try_through(const size_t *lengths)
{
    struct input a = lend(0, &sheet);
    open_buffer(0, lengths[0]);
    struct desk_rewritten one = desk_through(INPUT(a), edition, BUFFER(0));
    struct desk_rewritten other = oracle_through(INPUT(a), edition, ORACLE(0));
    check_numbers("desk_through", &one, &other, sizeof one);
    check_buffers("desk_through", 1, other.reason, -1);
    check_input("desk_through", a);
    return other.reason;
}

static uint32_t try_classes(const size_t *lengths)
{
    struct input a = lend(0, &site);
    open_buffer(0, lengths[0]);
    struct desk_classed one = desk_classes(INPUT(a), BUFFER(0));
    struct desk_classed other = oracle_classes(INPUT(a), ORACLE(0));
    check_numbers("desk_classes", &one, &other, sizeof one);
    check_buffers("desk_classes", 1, other.reason, -1);
    check_input("desk_classes", a);
    if (other.reason == DESK_OK)
        meet_places();
    if (other.reason == DESK_LABELS)
        meet_strays();
    return other.reason;
}

static uint32_t try_job(const size_t *lengths)
{
    struct input a = lend(0, &file);
    for (int k = 0; k < BUFFERS_MOST; k++)
        open_buffer(k, lengths[k]);
    struct desk_done one = desk_job(INPUT(a), limit, BUFFER(0), BUFFER(1), BUFFER(2), BUFFER(3), BUFFER(4), BUFFER(5));
    struct desk_done other = oracle_job(INPUT(a), limit, ORACLE(0), ORACLE(1), ORACLE(2), ORACLE(3), ORACLE(4), ORACLE(5));
    check_numbers("desk_job", &one, &other, sizeof one);
    check_buffers("desk_job", BUFFERS_MOST, other.reason, 5);
    if (stays(other.reason)) {
        refill_buffers(BUFFERS_MOST);
        one = desk_job(INPUT(a), larger, BUFFER(0), BUFFER(1), BUFFER(2), BUFFER(3), BUFFER(4), BUFFER(5));
        check_numbers("desk_job under a larger limit", &one, &other, sizeof one);
        check_buffers("desk_job under a larger limit", BUFFERS_MOST, other.reason, 5);
    }
    check_input("desk_job", a);
    if (other.reason == DESK_OK && memcmp(buffers[2].at, buffers[3].at, DESK_SET_BYTES) != 0)
        fail("desk_job", "the list today from the list after");
    return other.reason;
}

static uint32_t try_chain(const size_t *lengths)
{
    struct input a = lend(0, &site), b = lend(1, &cond);
    for (int k = 0; k < 3; k++)
        open_buffer(k, lengths[k]);
    struct desk_chained one = desk_chain(INPUT(a), INPUT(b), chain_way, chain_start, BUFFER(0), BUFFER(1), BUFFER(2));
    struct desk_chained other = oracle_chain(INPUT(a), INPUT(b), chain_way, chain_start, ORACLE(0), ORACLE(1), ORACLE(2));
    check_numbers("desk_chain", &one, &other, sizeof one);
    check_buffers("desk_chain", 3, other.reason, 2);
    check_input("desk_chain", a);
    check_input("desk_chain", b);
    if (other.reason == DESK_OK) {
        const uint8_t *chain = buffers[0].at, *set = buffers[1].at;
        check_exact(&one, chain, set);
        check_rest(&one, chain);
        meet_chain(&one, chain, set, check_tried(&one, chain, set));
    }
    if (other.reason == DESK_START)
        meet_start();
    return other.reason;
}

static const struct entry {
    uint32_t (*try)(const size_t *lengths);
    int buffers;
    size_t lengths[BUFFERS_MOST];
} entries[ENTRIES] = {
    [LIST] = {try_list, 2, {DESK_SET_BYTES, DESK_WORK_BYTES}},
    [APPLY] = {try_apply, 1, {DESK_SITE_BYTES}},
    [REWRITE] = {try_rewrite, 1, {DESK_TABLE_BYTES}},
    [CLASSES] = {try_classes, 1, {DESK_CLASSES_BYTES}},
    [JOB] = {try_job, 6, {DESK_SITE_BYTES, DESK_TABLE_BYTES, DESK_SET_BYTES, DESK_SET_BYTES, DESK_CLASSES_BYTES, DESK_WORK_BYTES}},
    [THROUGH] = {try_through, 1, {DESK_TABLE_BYTES}},
    [CHAIN] = {try_chain, 3, {DESK_CHAIN_BYTES, DESK_SET_BYTES, DESK_WORK_BYTES}},
};

static uint32_t try_entry(int e, const size_t *lengths)
{
    uint32_t reason = entries[e].try(lengths);
    met.reasons[e][reason]++;
    return reason;
}

/* What the condition for going through says is what applying does: listed on the site at hand it has every slot, or none. It has no loop, so that
 * no round is needed. The library's own tables and lists, so that a mistake that the oracle shares shows too. */
static void try_works(void)
{
    static uint8_t table[DESK_TABLE_BYTES], result[DESK_SITE_BYTES], set[DESK_SET_BYTES], work[DESK_WORK_BYTES], wanted[DESK_SET_BYTES];
    struct desk_rewritten through = desk_through(sheet.at, sheet.length, edition, table, sizeof table);
    struct desk_applied applied = desk_apply(site.at, site.length, sheet.at, sheet.length, edition, result, sizeof result);
    if (through.reason != DESK_OK || (applied.reason != DESK_OK && applied.reason != DESK_NOT_THROUGH))
        return;
    const bool works = applied.reason == DESK_OK;
    struct desk_listed r = desk_list(site.at, site.length, table, DESK_NODE_BYTES * through.nodes, 0, set, sizeof set, work, sizeof work);
    memset(wanted, works ? 0xff : 0, sizeof wanted);
    if (r.reason != DESK_OK || r.where != 0 || r.count != (works ? SLOTS : 0) || memcmp(set, wanted, sizeof set) != 0)
        fail("desk_through", "what its table lists from what applying does");
    met.works[works]++;
}

/* What the library says of the pieces at hand in one edition. */
struct answers {
    struct desk_applied applied;
    struct desk_rewritten rewritten, through;
    struct desk_done done;
    struct {
        uint8_t site[DESK_SITE_BYTES], rewritten[DESK_TABLE_BYTES], through[DESK_TABLE_BYTES];
        uint8_t job_site[DESK_SITE_BYTES], table[DESK_TABLE_BYTES], after[DESK_SET_BYTES], today[DESK_SET_BYTES], classes[DESK_CLASSES_BYTES];
        uint8_t work[DESK_WORK_BYTES];
    } to;
};

static void ask(struct answers *a, uint32_t in_edition)
{
    const uint32_t kept = edition;
    edition = in_edition;
    build_file();
    memset(&a->to, 0xaa, sizeof a->to);
    a->applied = desk_apply(site.at, site.length, sheet.at, sheet.length, edition, a->to.site, sizeof a->to.site);
    a->rewritten = desk_rewrite(cond.at, cond.length, sheet.at, sheet.length, edition, a->to.rewritten, sizeof a->to.rewritten);
    a->through = desk_through(sheet.at, sheet.length, edition, a->to.through, sizeof a->to.through);
    a->done = desk_job(file.at, file.length, limit, a->to.job_site, sizeof a->to.job_site, a->to.table, sizeof a->to.table, a->to.after,
                       sizeof a->to.after, a->to.today, sizeof a->to.today, a->to.classes, sizeof a->to.classes, a->to.work, sizeof a->to.work);
    edition = kept;
}

static bool has_functional_at(void)
{
    bool found = false;
    for (size_t k = 0; k + 1 < sheet.length; k += DESK_EDIT_BYTES)
        found |= is_functional_at(sheet.at + k);
    return found;
}

/* The sheet at hand in both editions, beside no oracle; the file is built again. Edition 2 goes through wherever edition 1 does, and gets as far
 * wherever it does not. */
static void try_editions(void)
{
    static struct answers one, two;
    ask(&one, DESK_EDITION_1);
    ask(&two, DESK_EDITION_2);
    const bool first = one.applied.reason == DESK_OK, second = two.applied.reason == DESK_OK, stuck = one.applied.reason == DESK_NOT_THROUGH;
    if (!has_functional_at() && memcmp(&one, &two, sizeof one) != 0)
        fail("a sheet without AT on links 4 to 7", "edition 2 from edition 1");
    if (!stuck && (one.applied.reason != two.applied.reason || memcmp(one.to.site, two.to.site, sizeof one.to.site) != 0))
        fail("desk_apply", "edition 2 from edition 1, which is not stuck,");
    if (stuck && !second && (two.applied.reason != DESK_NOT_THROUGH || two.applied.where < one.applied.where))
        fail("desk_apply", "how far edition 2 gets");
    if (one.done.reason == DESK_OK && two.done.reason == DESK_OK && memcmp(one.to.after, two.to.after, sizeof one.to.after) != 0)
        fail("desk_job", "the list of edition 2 from that of edition 1");
    if (two.done.reason == DESK_OK && edition == DESK_EDITION_2)
        for_reached(meet_over);
    if (first || stuck)
        met.editions[!has_functional_at() ? ALIKE : first ? SAME_SITE : second ? SECOND_ALONE : NEITHER]++;
}

/* The rounds of the condition on the site; one more than the highest limit for more. */
static uint32_t list_rounds(void)
{
    static uint8_t set[DESK_SET_BYTES], work[DESK_WORK_BYTES];
    struct desk_listed r = oracle_list(site.at, site.length, cond.at, cond.length, DESK_LIMIT_MAX, set, sizeof set, work, sizeof work);
    return r.reason == DESK_ROUNDS ? DESK_LIMIT_MAX + 1 : r.rounds;
}

/* The numbers from this one on, as a caller may have them by mistake. */
static uint32_t too_high(uint32_t first)
{
    switch (below(5)) {
    case 0:
        return first;
    case 1:
        return first + (uint32_t)below(3);
    case 2: /* a number that fits in its low bytes */
        return (one_in(2) ? 1u << 8 : 1u << (16 + below(16))) + (uint32_t)below((int)first);
    case 3:
        return UINT32_MAX - (uint32_t)below(3);
    default:
        return first + (uint32_t)below(1 << 30) * 3;
    }
}

/* One of the slots that are present; 0 if the site has none. */
static uint32_t some_present(void)
{
    int slots[SLOTS], count = 0;
    for (int s = 0; s < SLOTS; s++)
        if (has_slot(site.at, s))
            slots[count++] = s;
    return count == 0 ? 0 : (uint32_t)slots[below(count)];
}

/* A link that the site has, for the most part. */
static int some_link(void)
{
    int link = below(LINKS);
    for (int tries = 0; tries < 6; tries++, link = below(LINKS))
        if (link < GENERAL ? !all_zero(site.at + row_at(link, 0), LINK_BYTES) : !all_zero(site.at + target_at(link, 0), SLOTS))
            break;
    return link;
}

/* Ways and starts of all kinds. */
static void choose_chain(void)
{
    chain_way = one_in(16) ? too_high(EVERYWHERE) : (uint32_t)(some_link() + (one_in(2) ? LINKS : 0));
    chain_start = one_in(16) ? too_high(SLOTS) : one_in(16) ? (uint32_t)below(SLOTS) : some_present();
}

/* A random job gets limits about the rounds of its lists, and ways and starts for its chains. */
static void choose_numbers(int e)
{
    uint32_t after = 0, today = 0;
    if (e == LIST) {
        const uint32_t rounds = list_rounds();
        set_limit(rounds);
        meet_standing(rounds);
    } else if (e == JOB) {
        const bool runs = oracle_rounds(file.at, file.length, &after, &today);
        set_limit(one_in(2) ? today : after + (uint32_t)below((int)(today - after) + 1));
        if (runs)
            meet_shared(after, today);
    } else if (e == CHAIN) {
        choose_chain();
    }
}

/* The job at hand through all seven, with buffers as they should be. */
static void try_all(void)
{
    for (int e = 0; e < ENTRIES; e++) {
        if (job >= 0)
            choose_numbers(e);
        try_entry(e, entries[e].lengths);
    }
    try_works();
    for (int more = 0; job >= 0 && more < 3; more++) {
        choose_chain();
        try_entry(CHAIN, entries[CHAIN].lengths);
    }
}

/* A site with long chains, in place of the job's: the way that they go, from where they begin, and others. */
static void try_route(void)
{
    const struct route route = build_route();
    for (int k = 0; k < 4; k++) {
        choose_chain();
        if (k < 2 || one_in(2))
            chain_way = (uint32_t)route.way;
        if (k < 1 || one_in(2))
            chain_start = (uint32_t)route.start;
        try_entry(CHAIN, entries[CHAIN].lengths);
    }
}

/* One buffer of the fifteen, counted over the entry points, is a byte short or a byte long. */
static void try_off_by_one(int number, bool longer)
{
    size_t lengths[BUFFERS_MOST];
    int e = 0, k = number;
    while (k >= entries[e].buffers)
        k -= entries[e++].buffers;
    memcpy(lengths, entries[e].lengths, sizeof lengths);
    if (longer)
        lengths[k]++;
    else
        lengths[k]--;
    if (try_entry(e, lengths) != DESK_BUFFER_LENGTH)
        fail("a buffer of a wrong length", "the reason");
    (longer ? met.longer : met.shorter)[number]++;
}

/* One buffer at least has no byte, one too few, one too many, or another buffer's length. */
static void try_wrong_lengths(void)
{
    const int e = one_in(2) ? JOB : below(ENTRIES), wrong = below(entries[e].buffers);
    size_t lengths[BUFFERS_MOST];
    for (int k = 0; k < entries[e].buffers; k++) {
        const size_t right = entries[e].lengths[k], other = right == DESK_WORK_BYTES ? DESK_SET_BYTES : DESK_WORK_BYTES;
        const size_t faults[4] = {0, right - 1, right + 1, other};
        lengths[k] = k == wrong || one_in(6) ? faults[below(4)] : right;
    }
    try_entry(e, lengths);
}

/* ---- cases with known answers */

static void expect(bool holds, const char *what)
{
    if (!holds) {
        printf("desk_test: %s\n", what);
        exit(1);
    }
}

/* Site A of the specification. */
static void build_a(void)
{
    site.length = DESK_SITE_BYTES;
    memset(site.at, 0, site.length);
    site.at[0] = 0x0f;
    site.at[LABELS_AT] = 0x02;
    site.at[NAMES_AT + 1] = 2;
    site.at[NAMES_AT + 2] = 3;
    site.at[target_at(4, 2)] = 1;
    site.at[target_at(4, 3)] = 2;
}

/* The same with slots 4 and 5, which are alike. */
static void build_twins(void)
{
    build_a();
    site.at[0] = 0x3f;
    site.at[target_at(4, 4)] = site.at[target_at(4, 5)] = 1;
}

/* The condition R of the specification. */
static void build_r(void)
{
    cond.length = 0;
    add_node(LABEL, 0, 0, 0);
    add_node(VARIABLE, 0, 0, 0);
    add_node(DIAMOND, 4, 1, 0);
    add_node(OR, 0, 0, 2);
    add_node(MU, 0, 3, 0);
}

/* Label 0, and then this kind over the node before it. */
static void build_chain(int kind, int param, int count)
{
    cond.length = 0;
    add_node(LABEL, 0, 0, 0);
    for (int i = 0; i < count - 1; i++)
        add_node(kind, param, i, children(kind) == 2 ? i : 0);
}

/* So many times the same edit behind the sheet. */
static void add_edits(int times, int op, int x, int y, int z)
{
    const uint8_t edit[DESK_EDIT_BYTES] = {(uint8_t)op, (uint8_t)x, (uint8_t)y, (uint8_t)z};
    for (int k = 0; k < times; k++)
        append(&sheet, edit, sizeof edit);
}

static void build_sheet(int op, int x, int y, int z)
{
    sheet.length = 0;
    add_edits(1, op, x, y, z);
}

/* The pieces of the job of the specification. */
static void build_j(void)
{
    build_a();
    build_r();
    build_sheet(DT2, 4, 1, 0);
}

/* The reason, with the count or W. */
static void expect_list(uint32_t reason, uint32_t number, const char *what)
{
    static uint8_t set[DESK_SET_BYTES], work[DESK_WORK_BYTES];
    struct desk_listed r = desk_list(site.at, site.length, cond.at, cond.length, DESK_LIMIT_MAX, set, sizeof set, work, sizeof work);
    expect(r.reason == reason && (reason ? r.where : r.count) == number, what);
}

/* The reason, with the nodes of the table. */
static void expect_rewrite(uint32_t reason, uint32_t nodes, const char *what)
{
    static uint8_t table[DESK_TABLE_BYTES];
    struct desk_rewritten r = desk_rewrite(cond.at, cond.length, sheet.at, sheet.length, edition, table, sizeof table);
    expect(r.reason == reason && r.where == 0 && r.nodes == nodes, what);
}

/* The reason of the sheet's condition for going through, with the nodes of its table or W. */
static void expect_through(uint32_t reason, uint32_t number, const char *what)
{
    static uint8_t table[DESK_TABLE_BYTES];
    struct desk_rewritten r = desk_through(sheet.at, sheet.length, edition, table, sizeof table);
    expect(r.reason == reason && r.where == (reason ? number : 0) && r.nodes == (reason ? 0 : number), what);
    try_entry(THROUGH, entries[THROUGH].lengths);
}

/* How many slots that condition lists on the site at hand: all if the sheet goes through, or none. */
static void expect_works(bool works, const char *what)
{
    static uint8_t table[DESK_TABLE_BYTES], set[DESK_SET_BYTES], work[DESK_WORK_BYTES];
    struct desk_rewritten t = desk_through(sheet.at, sheet.length, edition, table, sizeof table);
    struct desk_listed r = desk_list(site.at, site.length, table, DESK_NODE_BYTES * t.nodes, 0, set, sizeof set, work, sizeof work);
    expect(t.reason == DESK_OK && r.reason == DESK_OK && r.count == (works ? SLOTS : 0), what);
    try_works();
}

/* The reason of a job, with the count of both lists. */
static void expect_job(uint32_t reason, uint32_t count, const char *what)
{
    static uint8_t result[DESK_SITE_BYTES], table[DESK_TABLE_BYTES], after[DESK_SET_BYTES], today[DESK_SET_BYTES];
    static uint8_t classes[DESK_CLASSES_BYTES], work[DESK_WORK_BYTES];
    struct desk_done r = desk_job(file.at, file.length, DESK_LIMIT_MAX, result, sizeof result, table, sizeof table, after, sizeof after,
                                  today, sizeof today, classes, sizeof classes, work, sizeof work);
    expect(r.reason == reason && r.where == 0 && r.after == count && r.today == count, what);
}

/* Chains of 2,048 nodes, which may be too deep for the oracle. The rounds of a loop double with each loop around it. */
static void try_chains(void)
{
    build_a();
    sheet.length = 0;
    for (int kind = NOT; kind <= NU; kind++) {
        const bool loops = kind == MU || kind == NU;
        const uint32_t reason = loops ? DESK_ROUNDS : DESK_OK;
        const uint32_t count = loops ? 0 : kind == NOT ? 255 : kind == DIAMOND ? 0 : kind == BOX ? SLOTS : 1;
        build_chain(kind, 0, DESK_NODES_MAX);
        build_file();
        try_entry(REWRITE, entries[REWRITE].lengths);
        expect_list(reason, count, "a chain of 2,048 nodes");
        expect_job(reason, count, "a job with a chain of 2,048 nodes");
    }
    build_chain(NOT, 0, DESK_NODES_MAX - 1);
    expect_list(DESK_OK, 1, "2,046 nots over label 0");
    build_chain(DIAMOND, EVERYWHERE, DESK_NODES_MAX);
    expect_list(DESK_OK, SLOTS, "2,047 times everywhere");
    build_chain(MU, 3, 19);
    expect_list(DESK_OK, 1, "18 loops without their variable");
    build_chain(MU, 3, 20);
    expect_list(DESK_ROUNDS, 0, "19 loops without their variable");
}

/* "2,048 nodes pass; 12,294 bytes are refused, 7." */
static void try_table_lengths(void)
{
    build_a();
    sheet.length = 0;
    for (int more = 0; more <= 1; more++) {
        const uint32_t reason = more ? DESK_CONDITION_LENGTH : DESK_OK, count = more ? 0 : 255;
        build_chain(NOT, 0, DESK_NODES_MAX + more);
        build_file();
        expect_list(reason, count, "the longest condition");
        expect_rewrite(reason, more ? 0 : DESK_NODES_MAX, "the longest condition, rewritten");
        expect_job(reason, count, "a job with the longest condition");
        try_all();
    }
}

/* "A with 4 and 5 present, link 4 to 1 from both: both class 4; absent slots 6." */
static void try_class_numbers(void)
{
    static const uint8_t first[] = {0, 1, 2, 3, 4, 4};
    static uint8_t classes[DESK_CLASSES_BYTES], numbers[DESK_CLASSES_BYTES];
    build_twins();
    memset(numbers, 6, sizeof numbers);
    memcpy(numbers, first, sizeof first);
    struct desk_classed r = desk_classes(site.at, site.length, classes, sizeof classes);
    expect(r.reason == DESK_OK && r.count == 6 && memcmp(classes, numbers, sizeof numbers) == 0, "the classes of A with 4 and 5");
    build_r();
    sheet.length = 0;
    build_file();
    try_all();
}

/* R through DT1 edits, each of which doubles its diamonds: 2,045 nodes after eight, and too many after nine. */
static void try_doubles(void)
{
    static const uint8_t dt1[DESK_EDIT_BYTES] = {DT1, 4, 1, 2};
    build_a();
    build_r();
    sheet.length = 0;
    for (int k = 0; k <= 9; k++) {
        const uint32_t reason = k < 9 ? DESK_OK : DESK_TABLE_FULL;
        build_file();
        expect_rewrite(reason, k < 9 ? 5 + 8 * ((1u << k) - 1) : 0, "R through DT1 edits");
        expect_job(reason, k < 9 ? 3 : 0, "a job with R and DT1 edits");
        try_all();
        append(&sheet, dt1, sizeof dt1);
    }
}

/* AP makes six nodes of its label, each time: rewritten tables of 2,048 nodes, and of 2,049. Another label is copied. */
static void try_full_tables(void)
{
    static const int times[] = {1, 2, DESK_EDITS_MAX};
    for (int k = 0; k < 6; k++) {
        const int more = k % 2;
        sheet.length = 0;
        add_edits(times[k / 2], AP, 1, 0, 0);
        build_chain(NOT, 0, DESK_NODES_MAX - 5 * times[k / 2] + more);
        expect_rewrite(more ? DESK_TABLE_FULL : DESK_OK, more ? 0 : DESK_NODES_MAX, "a full table");
        try_entry(REWRITE, entries[REWRITE].lengths);
    }
    build_sheet(AP, 1, 1, 0);
    build_chain(NOT, 0, DESK_NODES_MAX);
    expect_rewrite(DESK_OK, DESK_NODES_MAX, "a full table without the label");
}

/* The tables of short sheets, every byte, and whether the sheets work on site A. */
#define EDIT(op, x, y, z) (op), (x), (y), (z)
#define NODE(kind, param, left, right) (kind), (param), (left), 0, (right), 0 /* children below 256 */

/* The first nodes of AT m 1 2: true, and that neither end is nil. */
#define ENDS_1_2                                                                                                             \
    NODE(0, 0, 0, 0),                                                                                                        \
        NODE(3, 1, 0, 0), NODE(3, 0, 0, 0), NODE(7, 0, 1, 2), NODE(8, 16, 3, 0), NODE(5, 0, 4, 0), /* n1 nil & <E> ! */      \
        NODE(3, 2, 0, 0), NODE(3, 0, 0, 0), NODE(7, 0, 6, 7), NODE(8, 16, 8, 0), NODE(5, 0, 9, 0), /* n2 nil & <E> ! */      \
        NODE(7, 0, 5, 10)

enum { EITHER = 0 }; /* for an edition: the same in both */

static const struct known {
    const char *what;
    uint32_t edition;
    bool works;
    int edits, nodes;
    uint8_t sheet[2 * DESK_EDIT_BYTES], table[26 * DESK_NODE_BYTES];
} known[] = {
    {"through no edit", EITHER, true, 0, 1, {0}, {NODE(0, 0, 0, 0)}},
    {"through DT2 4 1", EITHER, true, 1, 1, {EDIT(6, 4, 1, 0)}, {NODE(0, 0, 0, 0)}},
    {"through DS 1", EITHER, true, 1, 7, {EDIT(8, 1, 0, 0)},
     {NODE(0, 0, 0, 0), NODE(3, 1, 0, 0), NODE(3, 0, 0, 0), NODE(7, 0, 1, 2), NODE(8, 16, 3, 0), NODE(5, 0, 4, 0), NODE(7, 0, 0, 5)}},
    {"through AS 3 4", EITHER, true, 1, 7, {EDIT(7, 3, 4, 0)},
     {NODE(0, 0, 0, 0), NODE(1, 0, 0, 0), NODE(12, 4, 0, 0), NODE(7, 0, 1, 2), NODE(8, 16, 3, 0), NODE(5, 0, 4, 0), NODE(7, 0, 0, 5)}},
    {"through AS 3 3", EITHER, false, 1, 7, {EDIT(7, 3, 3, 0)},
     {NODE(0, 0, 0, 0), NODE(1, 0, 0, 0), NODE(12, 3, 0, 0), NODE(7, 0, 1, 2), NODE(8, 16, 3, 0), NODE(5, 0, 4, 0), NODE(7, 0, 0, 5)}},
    {"through AT 0 1 2", EITHER, true, 1, 13, {EDIT(4, 0, 1, 2)}, {ENDS_1_2, NODE(7, 0, 0, 11)}},
    {"through AT 4 1 2 in edition 2", DESK_EDITION_2, true, 1, 13, {EDIT(4, 4, 1, 2)}, {ENDS_1_2, NODE(7, 0, 0, 11)}},
    {"through AT 7 1 2 in edition 2", DESK_EDITION_2, true, 1, 13, {EDIT(4, 7, 1, 2)}, {ENDS_1_2, NODE(7, 0, 0, 11)}},
    {"through AT 4 1 2", DESK_EDITION_1, false, 1, 26, {EDIT(4, 4, 1, 2)},
     {ENDS_1_2, NODE(3, 1, 0, 0), NODE(0, 0, 0, 0), NODE(8, 4, 13, 0), NODE(7, 0, 12, 14), NODE(8, 16, 15, 0), NODE(5, 0, 16, 0),
      NODE(3, 1, 0, 0), NODE(3, 2, 0, 0), NODE(8, 4, 19, 0), NODE(7, 0, 18, 20), NODE(8, 16, 21, 0), NODE(6, 0, 17, 22),
      NODE(7, 0, 11, 23), NODE(7, 0, 0, 24)}},
    {"through DS 1, AS 3 4", EITHER, true, 2, 16, {EDIT(8, 1, 0, 0), EDIT(7, 3, 4, 0)},
     {NODE(0, 0, 0, 0), NODE(1, 0, 0, 0), NODE(3, 1, 0, 0), NODE(5, 0, 2, 0), NODE(7, 0, 1, 3), NODE(12, 4, 0, 0), NODE(7, 0, 4, 5),
      NODE(8, 16, 6, 0), NODE(5, 0, 7, 0), NODE(7, 0, 0, 8), NODE(3, 1, 0, 0), NODE(3, 0, 0, 0), NODE(7, 0, 10, 11), NODE(8, 16, 12, 0),
      NODE(5, 0, 13, 0), NODE(7, 0, 9, 14)}},
    {"through CN1 1 2, DS 1", EITHER, true, 2, 7, {EDIT(0, 1, 2, 0), EDIT(8, 1, 0, 0)},
     {NODE(0, 0, 0, 0), NODE(3, 2, 0, 0), NODE(3, 0, 0, 0), NODE(7, 0, 1, 2), NODE(8, 16, 3, 0), NODE(5, 0, 4, 0), NODE(7, 0, 0, 5)}},
};

static void try_through_tables(void)
{
    static uint8_t table[DESK_TABLE_BYTES], wanted[DESK_TABLE_BYTES];
    build_a();
    build_r();
    for (size_t k = 0; k < sizeof known / sizeof *known; k++) {
        if (known[k].edition != EITHER && known[k].edition != edition)
            continue;
        sheet.length = 0;
        append(&sheet, known[k].sheet, (size_t)(DESK_EDIT_BYTES * known[k].edits));
        memset(wanted, 0, sizeof wanted);
        memcpy(wanted, known[k].table, (size_t)(DESK_NODE_BYTES * known[k].nodes));
        memset(table, 0xaa, sizeof table);
        desk_through(sheet.at, sheet.length, edition, table, sizeof table);
        expect(memcmp(table, wanted, sizeof table) == 0, known[k].what);
        expect_through(DESK_OK, (uint32_t)known[k].nodes, known[k].what);
        expect_works(known[k].works, known[k].what);
        build_file();
        try_all();
    }
}

/* On site A: a functional link to the target that is there, where there is none and where there is another; ends at nil; slots that are there;
 * and edits that make a later one go through, or not. */
enum { NEVER = 0, ALWAYS = DESK_EDITION_1 }; /* the first edition in which a sheet works */

static const struct on_a {
    uint32_t from;
    int edits;
    uint8_t sheet[3 * DESK_EDIT_BYTES];
} on_a[] = {
    {ALWAYS, 1, {EDIT(AT, 4, 2, 1)}},
    {ALWAYS, 1, {EDIT(AT, 5, 1, 2)}},
    {DESK_EDITION_2, 1, {EDIT(AT, 4, 1, 2)}},
    {DESK_EDITION_2, 1, {EDIT(AT, 4, 1, 1)}},
    {NEVER, 1, {EDIT(AT, 0, 0, 1)}},
    {NEVER, 1, {EDIT(AT, 0, 1, 0)}},
    {NEVER, 1, {EDIT(AT, 4, 0, 1)}},
    {NEVER, 1, {EDIT(AT, 4, 1, 0)}},
    {NEVER, 1, {EDIT(AT, 5, 3, 1)}},
    {NEVER, 1, {EDIT(AT, 5, 1, 3)}},
    {NEVER, 1, {EDIT(AT, 7, 3, 3)}},
    {NEVER, 1, {EDIT(AS, 3, 0, 0)}},
    {ALWAYS, 1, {EDIT(AS, 3, 255, 0)}},
    {NEVER, 1, {EDIT(DS, 0, 0, 0)}},
    {NEVER, 1, {EDIT(DS, 3, 0, 0)}},
    {ALWAYS, 2, {EDIT(DT2, 4, 1, 0), EDIT(AT, 4, 1, 2)}},
    {ALWAYS, 2, {EDIT(DT1, 4, 2, 1), EDIT(AT, 4, 2, 2)}},
    {DESK_EDITION_2, 2, {EDIT(DT1, 4, 1, 2), EDIT(AT, 4, 1, 2)}},
    {ALWAYS, 2, {EDIT(AT, 5, 1, 2), EDIT(AT, 5, 1, 2)}},
    {DESK_EDITION_2, 2, {EDIT(AT, 5, 1, 2), EDIT(AT, 5, 1, 1)}},
    {DESK_EDITION_2, 3, {EDIT(AT, 4, 1, 2), EDIT(AT, 4, 1, 1), EDIT(AT, 4, 1, 2)}},
    {DESK_EDITION_2, 3, {EDIT(AT, 4, 1, 2), EDIT(CN2, 3, 1, 4), EDIT(DS, 3, 0, 0)}},
    {NEVER, 3, {EDIT(AT, 4, 1, 2), EDIT(CN2, 3, 3, 4), EDIT(DS, 3, 0, 0)}},
    {DESK_EDITION_2, 3, {EDIT(AT, 4, 1, 2), EDIT(DS, 2, 0, 0), EDIT(AT, 4, 1, 1)}},
    {NEVER, 3, {EDIT(AT, 4, 1, 2), EDIT(DS, 2, 0, 0), EDIT(AT, 4, 1, 2)}},
    {ALWAYS, 2, {EDIT(CN1, 3, 1, 0), EDIT(DS, 3, 0, 0)}},
    {NEVER, 2, {EDIT(CN1, 1, 3, 0), EDIT(DS, 1, 0, 0)}},
    {ALWAYS, 3, {EDIT(CN2, 3, 1, 4), EDIT(DS, 3, 0, 0), EDIT(AT, 4, 1, 2)}},
    {NEVER, 3, {EDIT(CN2, 3, 1, 4), EDIT(DS, 3, 0, 0), EDIT(DS, 3, 0, 0)}},
    {NEVER, 2, {EDIT(DS, 1, 0, 0), EDIT(AT, 0, 1, 2)}},
    {NEVER, 2, {EDIT(DS, 1, 0, 0), EDIT(AT, 4, 1, 2)}},
    {ALWAYS, 2, {EDIT(DS, 1, 0, 0), EDIT(AS, 3, 2, 0)}},
    {NEVER, 2, {EDIT(AS, 3, 4, 0), EDIT(AS, 5, 4, 0)}},
    {ALWAYS, 3, {EDIT(AS, 3, 4, 0), EDIT(DS, 3, 0, 0), EDIT(AS, 5, 4, 0)}},
    {ALWAYS, 2, {EDIT(AS, 3, 4, 0), EDIT(AT, 4, 3, 1)}},
};

static void try_through_on_a(void)
{
    build_a();
    for (size_t k = 0; k < sizeof on_a / sizeof *on_a; k++) {
        sheet.length = 0;
        append(&sheet, on_a[k].sheet, (size_t)(DESK_EDIT_BYTES * on_a[k].edits));
        expect_works(on_a[k].from != NEVER && on_a[k].from <= edition, "a sheet that works on site A, or does not");
        try_entry(THROUGH, entries[THROUGH].lengths);
        try_entry(APPLY, entries[APPLY].lengths);
    }
}

/* Edits of a kind that fit 64 times, and others up to the last that fits. With k AT of one functional link there are in edition 1
 * 1 + 25 k + 6 k (k - 1) nodes: each has two diamonds, and makes seven nodes of every diamond of those behind it. In edition 2, and for a general
 * link, there are 1 + 12 k, without a diamond. With k AS there are 1 + 6 k + k (k - 1): each has a here, and makes three nodes of it. Each DS makes
 * eleven nodes of every name but nil, and four of these are such names again. */
static void try_through_runs(void)
{
    static const struct {
        int times, op, x, y, z;
        uint32_t nodes[2]; /* in each edition; 0: too many */
    } runs[] = {
        {64, CN1, 1, 2, 0, {1, 1}},      {64, CN2, 1, 2, 4, {1, 1}},   {64, AP, 1, 0, 0, {1, 1}},       {64, DP, 1, 0, 0, {1, 1}},
        {64, DT1, 4, 1, 2, {1, 1}},      {64, DT2, 4, 1, 0, {1, 1}},   {64, AT, 0, 1, 2, {769, 769}},   {64, DS, 0, 0, 0, {385, 385}},
        {16, AT, 4, 2, 1, {1841, 193}},  {17, AT, 4, 2, 1, {0, 205}},  {64, AT, 7, 2, 1, {0, 769}},     {42, AS, 3, 4, 0, {1975, 1975}},
        {43, AS, 3, 4, 0, {0, 0}},       {64, AS, 3, 4, 0, {0, 0}},    {5, DS, 1, 0, 0, {1151, 1151}},  {6, DS, 1, 0, 0, {0, 0}},
        {64, DS, 1, 0, 0, {0, 0}},
    };
    build_a();
    for (size_t k = 0; k < sizeof runs / sizeof *runs; k++) {
        const uint32_t nodes = runs[k].nodes[edition - DESK_EDITION_1];
        sheet.length = 0;
        add_edits(runs[k].times, runs[k].op, runs[k].x, runs[k].y, runs[k].z);
        expect_through(nodes ? DESK_OK : DESK_TABLE_FULL, nodes, "edits of one kind");
        try_works();
    }
}

/* So many AT of links 0, 4 and 5, and one of 6 and 7 each, all of which go through on site A. */
static void add_links(int zeros, int fours, int fives)
{
    add_edits(zeros, AT, 0, 1, 2);
    add_edits(fours, AT, 4, 2, 1);
    add_edits(fives, AT, 5, 1, 2);
    add_edits(1, AT, 6, 1, 2);
    add_edits(1, AT, 7, 1, 2);
}

/* A full table, 1 + 11 * 12 + (16 * 25 + 6 * 16 * 15) + 3 * 25 = 2,048 nodes. And one of 1 + 8 * 12 + (16 * 25 + 6 * 16 * 15) + (2 * 25 + 6 * 2) +
 * 2 * 25 = 2,049, which only the own condition of the first edit makes too long: rewritten through it, the table has 2,037. */
static void try_full_through(void)
{
    build_a();
    sheet.length = 0;
    add_links(11, 16, 1);
    expect_through(DESK_OK, DESK_NODES_MAX, "through to a full table");
    expect_works(true, "a full table of a sheet that works");
    sheet.length = 0;
    add_links(8, 16, 2);
    expect_through(DESK_TABLE_FULL, 0, "through to a node more than a table has");
}

/* Edition 2. DS 0 makes 1 + 6 nodes, 39 AS 6 * 39 + 39 * 38 more, DS 1 in front of them 3 * 39 + 6, and an AT behind CN2 12 + 10; with 15 AT more
 * these are 2,048. The last own condition fits exactly, and there is no room for another one. */
static void try_full_second(void)
{
    for (int more = 0; more <= 1; more++) {
        sheet.length = 0;
        add_edits(15 + more, AT, 4, 1, 2);
        add_edits(1, CN2, 3, 1, 5);
        add_edits(1, AT, 4, 3, 2);
        add_edits(1, DS, 1, 0, 0);
        add_edits(39, AS, 3, 4, 0);
        add_edits(1, DS, 0, 0, 0);
        expect_through(more ? DESK_TABLE_FULL : DESK_OK, more ? 0 : DESK_NODES_MAX, "through to a full table in edition 2");
    }
    sheet.length = 0;
    add_links(11, 16, 1);
    expect_through(DESK_OK, 1 + 12 * 30, "edition 2 of the sheet that fills a table in edition 1");
}

/* In front of the edits of a full table: one that adds nothing, one that adds only its own condition, and one that only rewrites diamonds. */
static void try_before_full_through(void)
{
    build_sheet(AP, 1, 0, 0);
    add_links(11, 16, 1);
    expect_through(DESK_OK, DESK_NODES_MAX, "an edit that leaves a full table as it is");
    build_sheet(AT, 1, 1, 2);
    add_links(11, 16, 1);
    expect_through(DESK_TABLE_FULL, 0, "a condition behind a full table");
    build_sheet(DT2, 4, 3, 0);
    add_links(11, 16, 1);
    expect_through(DESK_TABLE_FULL, 0, "a full table rewritten");
}

/* Items 11 and 12 before 14: a sheet that is a byte too long, an edit too long, and one whose last edit is none, all with too large a table. */
static void try_refused_through(void)
{
    build_sheet(DS, 1, 0, 0);
    add_edits(DESK_EDITS_MAX, DS, 1, 0, 0);
    expect_through(DESK_SHEET_LENGTH, 0, "65 edits");
    sheet.length -= DESK_EDIT_BYTES - 1;
    expect_through(DESK_SHEET_LENGTH, 0, "a byte more than 64 edits");
    sheet.length -= 1 + DESK_EDIT_BYTES;
    add_edits(1, OPERATIONS, 0, 0, 0);
    expect_through(DESK_EDIT, DESK_EDITS_MAX - 1, "an unknown edit, the last of 64");
    sheet.at[DESK_EDIT_BYTES + 2] = 1;
    expect_through(DESK_EDIT, 1, "an unused operand that is not 0");
}

/* The reason of the file at hand, also beside the oracle. */
static void expect_file(uint32_t reason, uint32_t count, const char *what)
{
    expect_job(reason, count, what);
    expect(try_entry(JOB, entries[JOB].lengths) == reason, what);
}

/* Files of up to 17 bytes, all zeros but an edition at the end: too short for a trailer; a trailer alone, with three empty pieces; and a byte that is
 * in no piece. */
static void try_short_files(void)
{
    for (uint32_t number = 0; number <= 3; number++)
        for (int length = 0; length <= 17; length++) {
            const bool known = number == DESK_EDITION_1 || number == DESK_EDITION_2;
            file.length = (size_t)length;
            memset(file.at, 0, file.length);
            if (length >= DESK_NUMBER_BYTES)
                put_number(file.at + length - DESK_NUMBER_BYTES, number);
            expect_file(length != 16 ? DESK_FILE : known ? DESK_SITE_LENGTH : DESK_EDITION, 0, "the shortest files");
        }
}

/* The job of the specification with a trailer of 12 to 17 bytes: without the edition, and with more or less of it. */
static void try_trailers(void)
{
    build_j();
    for (int bytes = 12; bytes <= 17; bytes++) {
        build_file();
        expect(file.length == 34434, "the length of the job of the specification");
        file.at[file.length] = 0;
        file.length = (size_t)(34418 + bytes);
        expect_file(bytes == 16 ? DESK_OK : DESK_FILE, bytes == 16 ? 1 : 0, "a trailer of so many bytes");
    }
}

/* Its trailer with other numbers: the edition is the fourth, and is compared with no distance. */
static void try_trailer_numbers(void)
{
    static const struct {
        uint32_t numbers[4], reason;
    } trailers[] = {
        {{4, 34, 34418, 1}, DESK_OK},            {{4, 34, 34418, 2}, DESK_OK},            {{4, 34, 34418, 34418}, DESK_EDITION},
        {{4, 34, 34418, 34434}, DESK_EDITION},   {{4, 34, 34418, 4}, DESK_EDITION},       {{4, 34, 34418, 1 << 24}, DESK_EDITION},
        {{4, 34, 1, 34418}, DESK_FILE},          {{4, 34, 34, 34418}, DESK_FILE},         {{4, 34, 34422, 1}, DESK_FILE},
        {{4, 34, 34417, 1}, DESK_FILE},          {{4, 34, 34419, 2}, DESK_FILE},          {{4, 34, 34419, 3}, DESK_FILE},
        {{35, 34, 34418, 1}, DESK_FILE},         {{35, 34, 34418, 0}, DESK_FILE},         {{4, 34419, 34418, 3}, DESK_FILE},
        {{34, 34, 34418, 3}, DESK_EDITION},      {{34, 34, 34418, 1}, DESK_CONDITION_LENGTH},
        {{4, 34418, 34418, 0}, DESK_EDITION},    {{4, 34418, 34418, 2}, DESK_SITE_LENGTH},
        {{0, 0, 34418, 256}, DESK_EDITION},      {{1, 4, 34, 34418}, DESK_FILE},          {{2, 4, 34, 34418}, DESK_FILE},
        {{4, 34, 34418, 0}, DESK_EDITION},       {{4, 34, 34418, 3}, DESK_EDITION},       {{4, 34, 34418, UINT32_MAX}, DESK_EDITION},
    };
    build_j();
    for (size_t k = 0; k < sizeof trailers / sizeof *trailers; k++) {
        build_file();
        for (int n = 0; n < 4; n++)
            put_number(file.at + 34418 + DESK_NUMBER_BYTES * n, trailers[k].numbers[n]);
        expect_file(trailers[k].reason, trailers[k].reason == DESK_OK ? 1 : 0, "a trailer with other numbers");
    }
}

/* The longest file, and one that is a byte longer: the pieces have at most 65,520 bytes. */
static void try_long_files(void)
{
    for (int k = 0; k < 6; k++) {
        const uint32_t number = (uint32_t)k / 2 + 1;
        const size_t room = 65520 + (size_t)k % 2;
        memset(file.at, 0, room);
        put_number(file.at + room, 0);
        put_number(file.at + room + 4, 0);
        put_number(file.at + room + 8, room);
        put_number(file.at + room + 12, number);
        file.length = room + 16;
        expect_file(k % 2 ? DESK_FILE : number == 3 ? DESK_EDITION : DESK_SITE_LENGTH, 0, "the longest file");
    }
}

/* The chain of 255 slots, whose classes take the most rounds, and a site with every arc of a link. */
static void try_large_sites(void)
{
    build_a();
    memset(site.at, 0xff, DESK_SET_BYTES);
    for (int s = 2; s < SLOTS; s++)
        site.at[target_at(4, s)] = (uint8_t)(s - 1);
    try_entry(CLASSES, entries[CLASSES].lengths);
    memset(site.at + TARGETS_AT, 0, SLOTS);
    for (int s = 1; s < SLOTS; s++) {
        memset(site.at + row_at(0, s), 0xff, DESK_SET_BYTES);
        site.at[row_at(0, s)] = 0xfe;
    }
    try_entry(CLASSES, entries[CLASSES].lengths);
}

/* ---- cases with many names */

static int place(int name)
{
    return 5 * name;
}

static int two_behind(int name)
{
    return 1 + (name + 1) % (NAMES - 1);
}

/* Every name at a place of its own; each place but nil has a label, and two links to the place two names behind. */
static void build_spread(void)
{
    site.length = DESK_SITE_BYTES;
    memset(site.at, 0, site.length);
    put_slot(site.at, DESK_NIL);
    for (int n = 1; n < NAMES; n++) {
        const int s = place(n), t = place(two_behind(n));
        put_slot(site.at, s);
        site.at[NAMES_AT + n] = (uint8_t)s;
        put_slot(site.at + label_at(n % LABELS), s);
        put_slot(site.at + row_at(n % GENERAL, s), t);
        site.at[target_at(GENERAL + n % FUNCTIONAL, s)] = (uint8_t)t;
    }
}

static void build_name(int name)
{
    cond.length = 0;
    add_node(NAME, name, 0, 0);
}

/* The names from this one on, and the or, or the and, of all of them. */
static void build_names(int kind, int first)
{
    const int count = NAMES - first;
    cond.length = 0;
    for (int n = first; n < NAMES; n++)
        add_node(NAME, n, 0, 0);
    for (int i = 1; i < count; i++)
        add_node(kind, 0, i == 1 ? 0 : count + i - 2, i);
}

/* A condition that each operation rewrites: a name and name 1, label 1, here, and a link both ways. */
static void build_probe(int name, int link)
{
    build_name(name);
    add_node(LABEL, 1, 0, 0);
    add_node(HERE, 0, 0, 0);
    add_node(DIAMOND, link, 0, 0);
    add_node(BOX, link + LINKS, 1, 0);
    add_node(AND, 0, 2, 4);
    add_node(OR, 0, 3, 5);
    add_node(OR, 0, 0, 6);
    add_node(NAME, 1, 0, 0);
    add_node(OR, 0, 7, 8);
}

/* An operand that fits: 1 is a name, a label and, on the spread site, an absent slot. */
static int fitting(char kind)
{
    return kind == '-' ? 0 : kind == 'm' || kind == 'f' ? GENERAL : 1;
}

/* A sheet whose second edit has this operand; its others fit. What is expected here is what the oracle believes, by its table of operands; the
 * scripts in Python have a table of their own. */
static void try_operand(int operation, int operand, int value)
{
    const char *kinds = operands[operation];
    const bool fits = value < NAMES && (value > 0 || kinds[operand] == 'n');
    build_probe(value < NAMES ? value : 0, GENERAL);
    build_sheet(DT2, 4, 1, 0);
    add_edits(1, operation, fitting(kinds[0]), fitting(kinds[1]), fitting(kinds[2]));
    sheet.at[DESK_EDIT_BYTES + 1 + operand] = (uint8_t)value;
    build_file();
    try_all();
    if (!fits)
        expect_through(DESK_EDIT, 1, "an operand that is no name");
    expect((try_entry(APPLY, entries[APPLY].lengths) == DESK_EDIT) == !fits, "an operand that is a name, or is none");
}

/* Every name, and numbers behind the last, in each operand that is a name. */
static void try_operands(void)
{
    build_spread();
    for (int k = 0; k < 3 * OPERATIONS; k++)
        for (int value = 0; is_name(k / 3, k % 3) && value <= NAMES + 1; value++)
            try_operand(k / 3, k % 3, value);
}

/* A link between names that is there goes, and comes back. In the byte `at` it stands alone. */
static void try_link(int link, int from, int to, int at)
{
    static uint8_t result[DESK_SITE_BYTES];
    build_probe(from, link);
    build_sheet(DT1, link, from, to);
    for (int back = 0; back <= 1; back++) {
        add_edits(back, AT, link, from, to);
        build_file();
        desk_apply(site.at, site.length, sheet.at, sheet.length, edition, result, sizeof result);
        expect(site.at[at] != 0 && (back ? memcmp(result, site.at, sizeof result) == 0 : result[at] == 0), "a link that goes, and comes back");
        try_all();
    }
}

/* Each name as the start and as the end of a general and of a functional link. */
static void try_link_ends(void)
{
    build_spread();
    for (int n = 1; n < NAMES; n++) {
        const int general = n % GENERAL, functional = GENERAL + n % FUNCTIONAL, to = two_behind(n);
        try_link(general, n, to, row_at(general, place(n)) + place(to) / 8);
        try_link(functional, n, to, target_at(functional, place(n)));
    }
}

/* Labels do not go as far as names. */
static void try_label_operands(int operation)
{
    for (int p = 0; p < 256; p++) {
        build_sheet(operation, NAMES - 1, p, 0);
        expect_through(p < LABELS ? DESK_OK : DESK_EDIT, p < LABELS ? 1 : 0, "an operand that is a label, or is none");
    }
}

/* Every parameter of the kinds that take a label, a name or a variable. */
static void try_parameters(int kind, int limit)
{
    build_a();
    for (int value = 0; value < 256; value++) {
        cond.length = 0;
        add_node(TRUE, 0, 0, 0);
        add_node(kind, value % limit, 0, 0);
        add_node(TRUE, 0, 0, 0);
        cond.at[DESK_NODE_BYTES + 1] = (uint8_t)value;
        expect_list(value < limit ? DESK_OK : DESK_NODE, value < limit ? SLOTS : 1, "a parameter at its limit");
        try_entry(LIST, entries[LIST].lengths);
        try_entry(REWRITE, entries[REWRITE].lengths);
    }
}

/* The list of each name alone: at its place, and at nil. */
static void try_single_names(void)
{
    static uint8_t set[DESK_SET_BYTES], work[DESK_WORK_BYTES];
    for (int k = 0; k < 2 * NAMES; k++) {
        const int n = k % NAMES, s = k < NAMES ? place(n) : DESK_NIL;
        build_spread();
        site.at[NAMES_AT + n] = (uint8_t)s;
        build_name(n);
        struct desk_listed r = desk_list(site.at, site.length, cond.at, cond.length, DESK_LIMIT_MAX, set, sizeof set, work, sizeof work);
        expect(r.reason == DESK_OK && r.count == 1 && set[s / 8] == 1 << s % 8, "the list of a name");
        try_entry(LIST, entries[LIST].lengths);
    }
}

/* The reason of each function that has the site among its inputs. */
static void expect_site(uint32_t reason, const char *what)
{
    static const int with_site[] = {LIST, APPLY, CLASSES, JOB};
    build_file();
    for (size_t k = 0; k < sizeof with_site / sizeof *with_site; k++)
        expect(try_entry(with_site[k], entries[with_site[k]].lengths) == reason, what);
}

/* Each name in turn at an absent slot. */
static void try_absent_names(void)
{
    build_r();
    build_sheet(DT2, 4, 1, 0);
    for (int n = 1; n < NAMES; n++) {
        build_a();
        site.at[NAMES_AT + n] = 9;
        expect_site(DESK_NAMES, "a name at an absent slot");
    }
}

/* Site A as it is with 16 names, where it is valid: 34,352 bytes. */
static void try_old_site(void)
{
    build_a();
    memmove(site.at + NAMES_AT + 16, site.at + TARGETS_AT, DESK_SITE_BYTES - TARGETS_AT);
    site.length = 34352;
    build_r();
    build_sheet(DT2, 4, 1, 0);
    expect_site(DESK_SITE_LENGTH, "a site of the length that 16 names give");
    expect(file.length == 34402, "the length of the job with it");
    expect_rewrite(DESK_OK, 8, "the condition beside such a site");
}

/* Forty names at slot 1, which goes by each of them: all move to nil, and the two others stay. */
static void try_crowd(void)
{
    static uint8_t result[DESK_SITE_BYTES];
    build_a();
    memset(site.at + NAMES_AT + 8, 1, 40);
    for (int n = 8; n < NAMES; n++) {
        build_sheet(DS, n, 0, 0);
        desk_apply(site.at, site.length, sheet.at, sheet.length, edition, result, sizeof result);
        expect(result[NAMES_AT + 1] == 2 && result[NAMES_AT + 2] == 3 && all_zero(result + NAMES_AT + 3, NAMES - 3), "forty names at nil");
        build_names(n % 2 ? OR : AND, 8);
        build_file();
        expect_job(DESK_OK, 1, "the only slot of forty names");
        try_all();
    }
}

/* Slots 4 and 5 are alike but for one name. */
static void try_twins(void)
{
    static uint8_t classes[DESK_CLASSES_BYTES];
    for (int n = HIGH; n < NAMES; n++) {
        build_twins();
        site.at[NAMES_AT + n] = 5;
        struct desk_classed r = desk_classes(site.at, site.length, classes, sizeof classes);
        expect(r.reason == DESK_OK && r.count == 7 && classes[4] == 4 && classes[5] == 5 && classes[6] == 6, "two slots apart by a name");
        build_name(n);
        expect_list(DESK_OK, 1, "the one of two slots that has the name");
        build_probe(n, GENERAL);
        build_sheet(CN1, n, 0, 0);
        build_file();
        try_all();
    }
}

/* The longest job that is not refused: 2,048 nodes, before and after, and 64 edits. Each name from 16 on moves to the next one's place, twice. */
static void try_largest_job(void)
{
    const int high = NAMES - HIGH;
    build_spread();
    build_names(OR, HIGH);
    for (int last = (int)cond.length / DESK_NODE_BYTES - 1; last < DESK_NODES_MAX - 1; last++)
        add_node(OR, 0, last, last % high);
    sheet.length = 0;
    for (int k = 0; k < DESK_EDITS_MAX; k++)
        add_edits(1, CN1, HIGH + k % high, HIGH + (k + 1) % high, 0);
    build_file();
    expect(file.length == 46944, "the length of the longest job");
    expect_rewrite(DESK_OK, DESK_NODES_MAX, "the table of the longest job");
    expect_job(DESK_OK, 31, "the longest job");
    try_all();
}

static void try_many_names(void)
{
    try_operands();
    try_link_ends();
    try_label_operands(AP);
    try_label_operands(DP);
    try_parameters(LABEL, LABELS);
    try_parameters(NAME, NAMES);
    try_parameters(VARIABLE, VARIABLES);
    try_parameters(MU, VARIABLES);
    try_parameters(NU, VARIABLES);
    try_single_names();
    try_absent_names();
    try_old_site();
    try_crowd();
    try_twins();
    try_largest_job();
}

/* ---- every bit of a set, since sets are worked on eight bytes at a time */

static void flip(uint8_t *set, int slot)
{
    set[slot / 8] ^= (uint8_t)(1 << slot % 8);
}

/* The list has these slots and no others, or all slots but these. */
static void expect_set(bool in, int count, const int *slots, const char *what)
{
    static uint8_t set[DESK_SET_BYTES], work[DESK_WORK_BYTES], wanted[DESK_SET_BYTES];
    struct desk_listed r = desk_list(site.at, site.length, cond.at, cond.length, DESK_LIMIT_MAX, set, sizeof set, work, sizeof work);
    memset(wanted, in ? 0 : 0xff, sizeof wanted);
    for (int k = 0; k < count; k++)
        flip(wanted, slots[k]);
    expect(r.reason == DESK_OK && r.count == (uint32_t)(in ? count : SLOTS - count) && memcmp(set, wanted, sizeof set) == 0, what);
    try_entry(LIST, entries[LIST].lengths);
}

/* Every slot is there, and nothing else. */
static void build_bare(void)
{
    site.length = DESK_SITE_BYTES;
    memset(site.at, 0, site.length);
    memset(site.at, 0xff, DESK_SET_BYTES);
}

/* The label is on every slot but 0, which has none. */
static void label_all(int label)
{
    memset(site.at + label_at(label), 0xff, DESK_SET_BYTES);
    flip(site.at + label_at(label), DESK_NIL);
}

/* Nodes 0 and 1: one slot, and all but it. Nodes 3 and 2: another slot and nil, and all but these. Each of them once by a label and once by a not. */
static void build_singles(int slot, int other)
{
    build_bare();
    put_slot(site.at + label_at(0), slot);
    label_all(1);
    flip(site.at + label_at(1), other);
    cond.length = 0;
    add_node(LABEL, 0, 0, 0);
    add_node(NOT, 0, 0, 0);
    add_node(LABEL, 1, 0, 0);
    add_node(NOT, 0, 2, 0);
}

/* Or and and of these, on both sides. The other slot is in the same byte, in the same word or in another one. */
static void try_single_slots(void)
{
    static const struct {
        int kind, left, right;
        bool in;
        int count; /* how many of the three slots */
    } joins[] = {
        {OR, 0, 0, true, 1}, {AND, 1, 1, false, 1}, {OR, 0, 3, true, 3}, {OR, 3, 0, true, 3}, {AND, 1, 2, false, 3}, {AND, 2, 1, false, 3},
        {AND, 0, 2, true, 1}, {AND, 2, 0, true, 1}, {OR, 1, 3, false, 1}, {OR, 3, 1, false, 1}, {AND, 0, 3, true, 0}, {OR, 1, 2, false, 0},
    };
    for (int s = 1; s < SLOTS; s++)
        for (size_t k = 0; k < sizeof joins / sizeof *joins; k++) {
            const int slots[] = {s, s ^ 1 << s % 8, DESK_NIL};
            build_singles(slots[0], slots[1]);
            add_node(joins[k].kind, 0, joins[k].left, joins[k].right);
            expect_set(joins[k].in, joins[k].count, slots, "an or or an and of sets with one slot, or all but one");
        }
}

/* Mu x (one | two and <E> x | three and <E> (two and x)), which takes one slot more in each of three rounds; or nu of what is left. */
static void build_rounds(bool mu, const int *slots)
{
    const int with = mu ? AND : OR, join = mu ? OR : AND, modal = mu ? DIAMOND : BOX;
    const int one = mu ? 0 : 3, two = one + 1, three = one + 2;
    cond.length = 0;
    for (int k = 0; k < 3; k++)
        add_node(SLOT, slots[k], 0, 0);
    for (int k = 0; k < 3; k++)
        add_node(NOT, 0, k, 0);
    add_node(VARIABLE, 0, 0, 0);
    add_node(modal, EVERYWHERE, 6, 0);
    add_node(with, 0, two, 7);
    add_node(with, 0, two, 6);
    add_node(modal, EVERYWHERE, 9, 0);
    add_node(with, 0, three, 10);
    add_node(join, 0, one, 8);
    add_node(join, 0, 12, 11);
    add_node(mu ? MU : NU, 0, 13, 0);
}

/* A loop that stops when two rounds differ in one slot alone, whichever it is, lists too few or too many. */
static void try_single_rounds(void)
{
    build_bare();
    for (int s = 0; s < SLOTS; s++)
        for (int mu = 0; mu <= 1; mu++) {
            const int slots[] = {(s + 131) % SLOTS, s, (s + 62) % SLOTS};
            build_rounds(mu, slots);
            expect_set(mu, 3, slots, "a loop with one slot in each round");
        }
}

/* The slots but nil with the same place in a word: one in each word. */
static int quarter(int slot, int *slots)
{
    int count = 0;
    for (int s = slot % 64; s < SLOTS; s += 64)
        if (s != DESK_NIL)
            slots[count++] = s;
    return count;
}

/* Rows with a slot in each word: a diamond finds each of them alone, and a box misses each. */
static void try_quarters(void)
{
    int slots[4];
    build_bare();
    for (int s = 1; s < SLOTS; s++)
        for (int k = quarter(s, slots) - 1; k >= 0; k--)
            put_slot(site.at + row_at(0, s), slots[k]);
    for (int k = 0; k < 4 * SLOTS; k++) {
        const int s = k / 4, count = s == DESK_NIL ? 0 : quarter(s, slots), way = k % 2 ? LINKS : 0;
        cond.length = 0;
        add_node(SLOT, s, 0, 0);
        add_node(NOT, 0, 0, 0);
        add_node(k / 2 % 2 ? DIAMOND : BOX, way, k / 2 % 2 ? 0 : 1, 0);
        expect_set(k / 2 % 2, count, slots, "a diamond or a box of rows with a slot in each word");
    }
}

/* One slot is absent: a label there or on slot 0, a link to either or from it is refused, and the same with all other slots is not. */
static void try_absent_slots(void)
{
    cond.length = 0;
    add_node(TRUE, 0, 0, 0);
    for (int s = 1; s < SLOTS; s++) {
        const int from = 1 + s % (SLOTS - 1);
        const struct {
            int at, slot;
            uint32_t reason;
        } faults[] = {
            {label_at(9), s, DESK_LABELS},    {label_at(9), DESK_NIL, DESK_LABELS},    {row_at(1, from), s, DESK_LINKS},
            {row_at(2, s), from, DESK_LINKS}, {row_at(1, from), DESK_NIL, DESK_LINKS},
        };
        for (size_t k = 0; k < sizeof faults / sizeof *faults; k++)
            for (int fault = 0; fault <= 1; fault++) {
                build_bare();
                flip(site.at, s);
                label_all(9);
                flip(site.at + label_at(9), s);
                memcpy(site.at + row_at(1, from), site.at + label_at(9), DESK_SET_BYTES);
                if (fault)
                    flip(site.at + faults[k].at, faults[k].slot);
                expect(try_entry(LIST, entries[LIST].lengths) == (fault ? faults[k].reason : DESK_OK), "a site with an absent slot");
            }
    }
}

enum { APART = 5 }; /* a neighbour, two slots that it may tell apart, and two of which these are the neighbours */

static bool among(const int *slots, int slot)
{
    for (int k = 0; k < APART; k++)
        if (slots[k] == slot)
            return true;
    return false;
}

/* The two have the same four neighbours by link 1; of the first, the one with a label may be a neighbour too, or the first may be its neighbour. */
static void build_apart(const int *slots, bool to, bool from)
{
    build_bare();
    put_slot(site.at + label_at(5), slots[0]);
    for (int shared = 33; shared < SLOTS; shared += 64)
        for (int k = 1; k <= 2 && !among(slots, shared); k++)
            put_slot(site.at + row_at(1, slots[k]), shared);
    for (int k = 1; k <= 2; k++)
        put_slot(site.at + row_at(2, slots[k + 2]), slots[k]);
    if (to)
        put_slot(site.at + row_at(1, slots[1]), slots[0]);
    if (from)
        put_slot(site.at + row_at(1, slots[0]), slots[1]);
}

/* Two slots that one neighbour tells apart, whichever it is. */
static void try_apart(void)
{
    static uint8_t classes[DESK_CLASSES_BYTES];
    for (int s = 1; s < SLOTS; s++)
        for (int k = 0; k < 3; k++) {
            const int slots[APART] = {s, 1 + s % 255, 1 + (s + 63) % 255, 1 + (s + 127) % 255, 1 + (s + 191) % 255};
            build_apart(slots, k == 1, k == 2);
            desk_classes(site.at, site.length, classes, sizeof classes);
            for (int j = 1; j < APART; j += 2)
                expect((classes[slots[j]] != classes[slots[j + 1]]) == (k > 0), "two slots that one neighbour tells apart");
            try_entry(CLASSES, entries[CLASSES].lengths);
        }
}

enum { LEAVES = 6, LOW_JOINED = 10, JOINED = 40, LEAF = JOINED + LEAVES + 1 };

/* Leaves with a label each; then slots with a link to all leaves but one, and a slot with a link to all. */
static void build_leaves(const int *leaves, int joined)
{
    for (int k = 0; k < LEAVES; k++)
        put_slot(site.at + label_at(k), leaves[k]);
    for (int j = 0; j <= LEAVES; j++)
        for (int k = 0; k < LEAVES; k++)
            if (j != k)
                put_slot(site.at + row_at(1, joined + j), leaves[k]);
}

static void expect_copies(const int *low, const int *leaves)
{
    static uint8_t classes[DESK_CLASSES_BYTES];
    desk_classes(site.at, site.length, classes, sizeof classes);
    for (int k = 0; k < LEAVES; k++)
        expect(classes[leaves[k]] == low[k], "a leaf of the second copy");
    for (int j = 0; j <= LEAVES; j++)
        expect(classes[JOINED + j] == LOW_JOINED + j, "a slot with links to the leaves of the second copy");
    try_entry(CLASSES, entries[CLASSES].lengths);
}

/* The same twice, so that no slot of the second is the lowest of its class: each of its leaves counts, wherever they stand in their words. */
static void try_copies(void)
{
    static const int low[LEAVES] = {1, 2, 3, 4, 5, 6};
    const int places = SLOTS - LEAF;
    for (int n = 0; n < 2 * places; n++) {
        int leaves[LEAVES];
        for (int k = 0; k < LEAVES; k++)
            leaves[k] = LEAF + (n / 2 + (n % 2 ? 37 : 1) * k) % places;
        build_bare();
        build_leaves(low, LOW_JOINED);
        build_leaves(leaves, JOINED);
        expect_copies(low, leaves);
    }
}

static void try_every_slot(void)
{
    try_single_slots();
    try_single_rounds();
    try_quarters();
    try_absent_slots();
    try_apart();
    try_copies();
}

/* ---- slot 0 has no label, and gets none */

/* Each label on slot 0: alone, with one other slot and with all. The same without slot 0 is no fault. */
static void try_labels_at_nil(void)
{
    build_r();
    build_sheet(DT2, 4, 1, 0);
    for (int p = 0; p < LABELS; p++)
        for (int k = 0; k < 6; k++) {
            const int others = k / 2, nil = k % 2;
            build_bare();
            if (others == 1)
                put_slot(site.at + label_at(p), 1);
            if (others == 2)
                label_all(p);
            if (nil)
                put_slot(site.at + label_at(p), DESK_NIL);
            expect_site(nil ? DESK_LABELS : DESK_OK, "a label on slot 0, or not");
        }
}

/* A label on slot 0 of site A beside another fault: items 4, 5 and 6, and 3. */
static void try_label_order(void)
{
    const struct {
        int at, value;
        uint32_t reason;
    } faults[] = {
        {0, 0x0e, DESK_NAMES},                                                        /* slot 0 is absent */
        {NAMES_AT, 1, DESK_NAMES},         {NAMES_AT + NAMES - 1, 4, DESK_NAMES},     /* a name is elsewhere, or at an absent slot */
        {label_at(7), 0x10, DESK_LABELS},  {label_at(8) - 1, 0x80, DESK_LABELS},      /* a label is on an absent slot */
        {row_at(0, 0), 2, DESK_LABELS},    {row_at(3, 1), 1, DESK_LABELS},            /* a link starts or ends at slot 0 */
        {target_at(4, 0), 1, DESK_LABELS}, {target_at(7, 0), 1, DESK_LABELS},
        {row_at(1, 4), 2, DESK_LABELS},    {row_at(2, 1), 0x10, DESK_LABELS},         /* or at an absent slot */
        {target_at(5, 4), 1, DESK_LABELS}, {target_at(6, 1), 4, DESK_LABELS},
    };
    build_r();
    build_sheet(DT2, 4, 1, 0);
    for (size_t k = 0; k < 2 * sizeof faults / sizeof *faults; k++) {
        build_a();
        site.at[faults[k / 2].at] = (uint8_t)faults[k / 2].value;
        put_slot(site.at + label_at(k % 2 ? LABELS - 1 : 0), DESK_NIL);
        expect_site(faults[k / 2].reason, "a label on slot 0 and another fault");
    }
    build_a();
    put_slot(site.at + LABELS_AT, DESK_NIL);
    for (site.length = DESK_SITE_BYTES - 1; site.length <= DESK_SITE_BYTES + 1; site.length += 2)
        expect_site(DESK_SITE_LENGTH, "a label on slot 0 of a site that is too short or too long");
}

/* The site that the sheet leaves. */
static const uint8_t *applied(void)
{
    static uint8_t result[DESK_SITE_BYTES];
    struct desk_applied r = desk_apply(site.at, site.length, sheet.at, sheet.length, edition, result, sizeof result);
    expect(r.reason == DESK_OK && r.where == 0, "a sheet that goes through");
    return result;
}

/* Some slot has the label. */
static void build_some(int label)
{
    cond.length = 0;
    add_node(LABEL, label, 0, 0);
    add_node(DIAMOND, EVERYWHERE, 0, 0);
}

/* What a planner tried: name 1 goes to nil and gets a label there. No slot has it, after or today; had the name stayed, one would. */
static void try_label_of_a_gone_name(void)
{
    static uint8_t table[DESK_TABLE_BYTES];
    for (int name = 0; name <= 1; name++) {
        const uint8_t wanted[] = {NODE(2, 7, 0, 0), NODE(3, name, 0, 0), NODE(3, 0, 0, 0), NODE(5, 0, 2, 0),
                                  NODE(7, 0, 1, 3), NODE(6, 0, 0, 4),    NODE(8, 16, 5, 0)};
        build_a();
        build_some(7);
        sheet.length = 0;
        add_edits(1 - name, CN1, 1, 0, 0);
        add_edits(1, AP, 1, 7, 0);
        build_file();
        expect_rewrite(DESK_OK, 7, "some slot has a label, through AP");
        desk_rewrite(cond.at, cond.length, sheet.at, sheet.length, edition, table, sizeof table);
        expect(memcmp(table, wanted, sizeof wanted) == 0, "the nodes of a label through AP");
        expect(all_zero(applied() + label_at(7), DESK_SET_BYTES) == (name == 0), "the label of a name at nil, or not");
        expect_job(DESK_OK, name ? SLOTS : 0, "a job with the label of a name at nil, or not");
        try_all();
    }
}

/* How name 1 of site A comes to nil. */
static const struct gone {
    int edits;
    uint8_t sheet[2 * DESK_EDIT_BYTES];
} to_nil[] = {
    {1, {EDIT(CN1, 1, 0, 0)}},
    {1, {EDIT(CN1, 1, 3, 0)}},
    {1, {EDIT(CN2, 1, 2, 5)}},
    {1, {EDIT(CN2, 1, 3, 4)}},
    {2, {EDIT(CN2, 1, 1, 4), EDIT(CN2, 1, 1, 4)}},
    {1, {EDIT(DS, 1, 0, 0)}},
    {2, {EDIT(CN1, 3, 1, 0), EDIT(DS, 3, 0, 0)}},
};

/* AP then changes nothing, nor does DP behind it; once the name is back on site, AP does. */
static void try_ways_to_nil(void)
{
    static uint8_t gone[DESK_SITE_BYTES];
    for (size_t k = 0; k < sizeof to_nil / sizeof *to_nil; k++) {
        build_a();
        build_some(7);
        sheet.length = 0;
        append(&sheet, to_nil[k].sheet, (size_t)(DESK_EDIT_BYTES * to_nil[k].edits));
        memcpy(gone, applied(), sizeof gone);
        expect(gone[NAMES_AT + 1] == DESK_NIL, "a name that comes to nil");
        for (int op = AP; op <= DP; op++) {
            add_edits(1, op, 1, 7, 0);
            expect(memcmp(applied(), gone, sizeof gone) == 0, "AP and DP with a name at nil");
            build_file();
            expect_job(DESK_OK, 0, "no slot has the label of a name at nil");
            try_all();
        }
        add_edits(1, AS, 1, 9, 0);
        add_edits(1, AP, 1, 7, 0);
        build_file();
        expect(has_slot(applied() + label_at(7), 9), "the label of a name that is back");
        expect_job(DESK_OK, SLOTS, "a slot has the label of a name that is back");
        try_all();
    }
}

/* Every name, and every label three times: with the name at a place of its own, and at nil, where name 0 is in any case. */
static void try_marks(void)
{
    for (int k = 0; k < 2 * NAMES; k++) {
        const int n = k / 2, p = (n + 1) % LABELS, s = k % 2 ? DESK_NIL : place(n);
        build_spread();
        site.at[NAMES_AT + n] = (uint8_t)s;
        build_some(p);
        build_sheet(AP, n, p, 0);
        expect(has_slot(applied() + label_at(p), s) == (s != DESK_NIL), "the label of a name, at its place or at nil");
        expect((memcmp(applied(), site.at, DESK_SITE_BYTES) == 0) == (s == DESK_NIL), "AP changes nothing with a name at nil, and only then");
        build_file();
        try_all();
    }
}

/* The longest sheets: at each place AP with a name at nil among others that are not, and the other way round. */
static void try_long_marks(void)
{
    for (int k = 0; k < 2 * DESK_EDITS_MAX; k++) {
        const int one = k % 2 ? 2 : 3, most = k % 2 ? 3 : 2;
        build_a();
        cond.length = 0;
        add_node(LABEL, 7, 0, 0);
        sheet.length = 0;
        add_edits(DESK_EDITS_MAX, AP, most, 7, 0);
        sheet.at[DESK_EDIT_BYTES * (k / 2) + 1] = (uint8_t)one;
        build_file();
        expect_rewrite(DESK_OK, 1 + 5 * DESK_EDITS_MAX, "a label through the longest sheet of AP");
        expect_job(DESK_OK, 1, "one slot has the label");
        expect(has_slot(applied() + label_at(7), 3), "it is the slot of name 2");
        try_all();
    }
}

static void try_nil(void)
{
    try_labels_at_nil();
    try_label_order();
    try_label_of_a_gone_name();
    try_ways_to_nil();
    try_marks();
    try_long_marks();
}

/* ---- rounds */

enum { MANY = DESK_LIMIT_MAX + 1 }; /* more rounds than any limit allows */

/* What the limit says of a list with so many rounds. */
static uint32_t due(uint32_t rounds)
{
    return limit > DESK_LIMIT_MAX ? DESK_LIMIT : rounds > limit ? DESK_ROUNDS : DESK_OK;
}

static void expect_list_rounds(uint32_t rounds, const char *what)
{
    static uint8_t set[DESK_SET_BYTES], work[DESK_WORK_BYTES];
    const uint32_t reason = due(rounds);
    memset(set, 0xaa, sizeof set);
    memset(work, 0xaa, sizeof work);
    struct desk_listed r = desk_list(site.at, site.length, cond.at, cond.length, limit, set, sizeof set, work, sizeof work);
    expect(r.reason == reason && r.where == 0 && r.rounds == (reason ? 0 : rounds) && all_zero(work, sizeof work), what);
    expect(reason == DESK_OK || (r.count == 0 && all_zero(set, sizeof set)), what);
}

static void expect_job_rounds(uint32_t after_rounds, uint32_t today_rounds, const char *what)
{
    static struct {
        uint8_t site[DESK_SITE_BYTES], table[DESK_TABLE_BYTES], after[DESK_SET_BYTES], today[DESK_SET_BYTES];
        uint8_t classes[DESK_CLASSES_BYTES], work[DESK_WORK_BYTES];
    } to;
    const uint32_t reason = due(today_rounds);
    memset(&to, 0xaa, sizeof to);
    struct desk_done r = desk_job(file.at, file.length, limit, to.site, sizeof to.site, to.table, sizeof to.table, to.after, sizeof to.after,
                                  to.today, sizeof to.today, to.classes, sizeof to.classes, to.work, sizeof to.work);
    expect(r.reason == reason && r.where == 0 && all_zero(to.work, sizeof to.work), what);
    expect(r.after_rounds == (reason ? 0 : after_rounds) && r.today_rounds == (reason ? 0 : today_rounds), what);
    expect(reason == DESK_OK || (r.after + r.today + r.nodes + r.classes == 0 && all_zero((const uint8_t *)&to, sizeof to)), what);
}

/* The list of the condition on the site, and the job, under limits about their rounds; beside the oracle where that does not take long. */
static void try_limits(uint32_t now, uint32_t after, uint32_t today, bool beside, const char *what)
{
    const uint32_t limits[] = {
        0, 1, now - (now > 0), now, now + 1, after - (after > 0), after, after + 1, today - (today > 0), today, today + 1, after + today,
        DESK_LIMIT_MAX - 1, DESK_LIMIT_MAX, DESK_LIMIT_MAX + 1, 1u << 31, UINT32_MAX,
    };
    for (size_t k = 0; k < sizeof limits / sizeof *limits; k++) {
        limit = larger = limits[k];
        expect_list_rounds(now, what);
        expect_job_rounds(after, today, what);
        if (beside) {
            expect(try_entry(LIST, entries[LIST].lengths) == due(now), what);
            expect(try_entry(JOB, entries[JOB].lengths) == due(today), what);
        }
    }
    limit = larger = DESK_LIMIT_MAX;
}

/* The condition at hand without a sheet. */
static void expect_rounds(uint32_t rounds, bool beside, const char *what)
{
    sheet.length = 0;
    build_file();
    try_limits(rounds, rounds, rounds, beside, what);
}

/* Conditions on site A with the rounds that the definition gives them. */
static const struct counted {
    const char *what;
    uint32_t rounds;
    int count;
    uint8_t nodes[13][4];
} counted[] = {
    {"mu 0 (not true)", 1, 3, {{TRUE, 0, 0, 0}, {NOT, 0, 0, 0}, {MU, 0, 1, 0}}},
    {"mu 0 true", 2, 2, {{TRUE, 0, 0, 0}, {MU, 0, 0, 0}}},
    {"nu 0 true", 1, 2, {{TRUE, 0, 0, 0}, {NU, 0, 0, 0}}},
    {"nu 0 (not true)", 2, 3, {{TRUE, 0, 0, 0}, {NOT, 0, 0, 0}, {NU, 0, 1, 0}}},
    {"mu 0 (variable 0)", 1, 2, {{VARIABLE, 0, 0, 0}, {MU, 0, 0, 0}}},
    {"nu 0 (diamond 4 variable 0)", 4, 3, {{VARIABLE, 0, 0, 0}, {DIAMOND, 4, 0, 0}, {NU, 0, 1, 0}}},
    {"mu 1 (mu 0 true)", 6, 3, {{TRUE, 0, 0, 0}, {MU, 0, 0, 0}, {MU, 1, 1, 0}}},
    {"mu 0 (mu 0 true)", 6, 3, {{TRUE, 0, 0, 0}, {MU, 0, 0, 0}, {MU, 0, 1, 0}}},
    {"nu 1 (mu 0 true)", 3, 3, {{TRUE, 0, 0, 0}, {MU, 0, 0, 0}, {NU, 1, 1, 0}}},
    {"a loop or itself", 4, 3, {{TRUE, 0, 0, 0}, {MU, 0, 0, 0}, {OR, 0, 1, 1}}},
    {"a loop and itself", 4, 3, {{TRUE, 0, 0, 0}, {MU, 0, 0, 0}, {AND, 0, 1, 1}}},
    {"a loop or itself, and itself", 6, 4, {{TRUE, 0, 0, 0}, {MU, 0, 0, 0}, {OR, 0, 1, 1}, {AND, 0, 1, 2}}},
    {"a loop that is not reached", 0, 3, {{TRUE, 0, 0, 0}, {MU, 0, 0, 0}, {TRUE, 0, 0, 0}}},
    {"nothing and a loop", 2, 4, {{TRUE, 0, 0, 0}, {NOT, 0, 0, 0}, {MU, 0, 0, 0}, {AND, 0, 1, 2}}},
    {"everything or a loop", 2, 3, {{TRUE, 0, 0, 0}, {MU, 0, 0, 0}, {OR, 0, 0, 1}}},
    {"a loop and nothing", 2, 4, {{TRUE, 0, 0, 0}, {NOT, 0, 0, 0}, {MU, 0, 0, 0}, {AND, 0, 2, 1}}},
    {"a loop or everything", 2, 3, {{TRUE, 0, 0, 0}, {MU, 0, 0, 0}, {OR, 0, 1, 0}}},
    {"R around a closed loop", 12, 10,
     {{LABEL, 0, 0, 0}, {VARIABLE, 0, 0, 0}, {DIAMOND, 4, 1, 0}, {OR, 0, 0, 2}, {TRUE, 0, 0, 0}, {NOT, 0, 4, 0}, {MU, 1, 4, 0},
      {AND, 0, 5, 6}, {OR, 0, 3, 7}, {MU, 0, 8, 0}}},
    {"R around a loop that reads its variable", 14, 13,
     {{LABEL, 0, 0, 0}, {VARIABLE, 0, 0, 0}, {DIAMOND, 4, 1, 0}, {OR, 0, 0, 2}, {TRUE, 0, 0, 0}, {NOT, 0, 4, 0}, {VARIABLE, 1, 0, 0},
      {DIAMOND, 4, 6, 0}, {OR, 0, 1, 7}, {MU, 1, 8, 0}, {AND, 0, 5, 9}, {OR, 0, 3, 10}, {MU, 0, 11, 0}}},
};

static void try_counted(void)
{
    build_a();
    build_r();
    expect_rounds(4, true, "R");
    for (size_t k = 0; k < sizeof counted / sizeof *counted; k++) {
        cond.length = 0;
        for (int i = 0; i < counted[k].count; i++) {
            const uint8_t *node = counted[k].nodes[i];
            add_node(node[0], node[1], node[2], node[3]);
        }
        expect_rounds(counted[k].rounds, true, counted[k].what);
    }
}

static int last_node(void)
{
    return (int)cond.length / DESK_NODE_BYTES - 1;
}

/* Or of the last node with itself, so many times. */
static void add_doubles(int times)
{
    for (int k = 0; k < times; k++)
        add_node(OR, 0, last_node(), last_node());
}

/* Mu 0 (not true), which makes one round. */
static void build_once(void)
{
    cond.length = 0;
    add_node(TRUE, 0, 0, 0);
    add_node(NOT, 0, 0, 0);
    add_node(MU, 0, 1, 0);
}

/* One loop at the end of 2 to the power k paths, up to 2,000. */
static void try_paths(void)
{
    static const int doubles[] = {1, 2, 8, 16, 19, 20, 31, 32, 33, 64, 2000};
    build_a();
    for (size_t k = 0; k < sizeof doubles / sizeof *doubles; k++) {
        build_once();
        add_doubles(doubles[k]);
        expect_rounds(doubles[k] < 20 ? 1u << doubles[k] : MANY, true, "one loop at the end of many paths");
    }
}

/* Loops around a constant, each in the next: one round each if it is the set that they start from, and else twice as many and two more with each. */
static void try_stacks(void)
{
    static const struct {
        int leaf, kind, loops;
        uint32_t rounds;
    } stacks[] = {
        {NOT, MU, 2046, 2046}, {TRUE, NU, 2046, 2046}, {TRUE, MU, 18, 524286}, {NOT, NU, 18, 524286}, {TRUE, MU, 19, MANY}, {NOT, NU, 2046, MANY},
    };
    build_a();
    for (size_t k = 0; k < sizeof stacks / sizeof *stacks; k++) {
        cond.length = 0;
        add_node(TRUE, 0, 0, 0);
        if (stacks[k].leaf == NOT)
            add_node(NOT, 0, 0, 0);
        for (int n = 0; n < stacks[k].loops; n++)
            add_node(stacks[k].kind, n % VARIABLES, last_node(), 0);
        expect_rounds(stacks[k].rounds, false, "loops around a constant");
    }
}

/* So many slots, with label 0 on slot 1, label 1 on slot 2, and link 4 from each to the one below it, down to 1. */
static void build_chain_site(int slots)
{
    site.length = DESK_SITE_BYTES;
    memset(site.at, 0, site.length);
    for (int s = 0; s < slots; s++)
        put_slot(site.at, s);
    for (int s = 2; s < slots; s++)
        site.at[target_at(4, s)] = (uint8_t)(s - 1);
    put_slot(site.at + label_at(0), 1);
    put_slot(site.at + label_at(1), 2);
}

/* Mu x (label 0 or <4> x or (nil and <E> (slot 255 and x))): a slot more in each round, nil last. Nu of what is left. */
static void try_longest_loop(void)
{
    build_chain_site(SLOTS);
    for (int mu = 0; mu <= 1; mu++) {
        const int with = mu ? AND : OR, join = mu ? OR : AND, modal = mu ? DIAMOND : BOX, leaves = mu ? 0 : 3;
        cond.length = 0;
        add_node(LABEL, 0, 0, 0);
        add_node(NAME, 0, 0, 0);
        add_node(SLOT, SLOTS - 1, 0, 0);
        for (int k = 0; k < 3; k++)
            add_node(NOT, 0, k, 0);
        add_node(VARIABLE, 0, 0, 0);
        add_node(modal, 4, 6, 0);
        add_node(join, 0, leaves, 7);
        add_node(with, 0, leaves + 2, 6);
        add_node(modal, EVERYWHERE, 9, 0);
        add_node(with, 0, leaves + 1, 10);
        add_node(join, 0, 8, 11);
        add_node(mu ? MU : NU, 0, 12, 0);
        expect_rounds(SLOTS + 1, true, "a loop with a slot in each round");
    }
}

/* Mu v (label v or <4> v), beside what stands at node `inner` but no slot has; below 0: beside nothing. */
static void add_reach(int v, int inner)
{
    add_node(LABEL, v, 0, 0);
    add_node(VARIABLE, v, 0, 0);
    add_node(DIAMOND, 4, last_node(), 0);
    add_node(OR, 0, last_node() - 2, last_node());
    if (inner >= 0) {
        add_node(LABEL, LABELS - 1, 0, 0);
        add_node(AND, 0, last_node(), inner);
        add_node(OR, 0, last_node() - 2, last_node());
    }
    add_node(MU, v, last_node(), 0);
}

/* On 125 slots 125 rounds with 124 inside each, at the end of 64 paths: 1,000,000. Then a round more, on the left and on the right. */
static void try_million(void)
{
    for (int more = 0; more <= 2; more++) {
        build_chain_site(125);
        build_once();
        const int once = last_node();
        add_reach(1, -1);
        add_reach(0, last_node());
        add_doubles(6);
        const int million = last_node();
        if (more > 0)
            add_node(OR, 0, more == 1 ? once : million, more == 1 ? million : once);
        expect_rounds(more ? MANY : DESK_LIMIT_MAX, false, "a million rounds, and one more");
        try_entry(LIST, entries[LIST].lengths);
    }
}

/* Loops in loops, mu and nu in turn, each of which reads the variable of the one around it. On a chain each makes as many rounds as there are
 * slots. */
static void build_nested(int depth)
{
    int inner = -1;
    cond.length = 0;
    add_node(LABEL, 0, 0, 0);
    add_node(LABEL, LABELS - 1, 0, 0);
    for (int v = depth - 1; v >= 0; v--) {
        add_node(VARIABLE, v, 0, 0);
        add_node(DIAMOND, 4, last_node(), 0);
        if (v % 2 == 0)
            add_node(OR, 0, 0, last_node());
        if (v > 0) {
            add_node(VARIABLE, v - 1, 0, 0);
            add_node(AND, 0, 1, last_node());
            add_node(OR, 0, last_node() - 2, last_node());
        }
        if (inner >= 0) {
            add_node(AND, 0, 1, inner);
            add_node(OR, 0, last_node() - 1, last_node());
        }
        add_node(v % 2 ? NU : MU, v, last_node(), 0);
        inner = last_node();
    }
}

/* Four deep and more, these are refused after a million rounds. Sixteen deep, a table of 133 nodes, they would go on for ever. */
static void try_nested(void)
{
    static const struct {
        int slots, depth;
        uint32_t rounds;
    } nests[] = {{8, 1, 8}, {8, 2, 72}, {8, 3, 584}, {8, 4, 4680}, {20, 3, 8420}};
    for (size_t k = 0; k < sizeof nests / sizeof *nests; k++) {
        build_chain_site(nests[k].slots);
        build_nested(nests[k].depth);
        expect_rounds(nests[k].rounds, nests[k].rounds < 1000, "loops in loops");
    }
    build_chain_site(SLOTS);
    for (int depth = 4; depth <= VARIABLES; depth *= 2) {
        build_nested(depth);
        build_file();
        expect_list(DESK_ROUNDS, 0, "loops in loops that take too long");
        expect_job(DESK_ROUNDS, 0, "a job with loops in loops that take too long");
    }
    expect(last_node() == 132, "the nodes of sixteen loops");
}

/* Both loops over what is below, a mu and a nu of one variable, which read the variable of the loops around them: all is evaluated afresh for each. A
 * list that goes on after its limit does not come to an end. */
static void try_forked(void)
{
    static const struct {
        int depth;
        uint32_t rounds;
    } forks[] = {{1, 7}, {2, 24}, {5, 674}, {8, 18224}, {12, MANY}, {500, MANY}};
    build_a();
    for (size_t k = 0; k < sizeof forks / sizeof *forks; k++) {
        const int depth = forks[k].depth;
        cond.length = 0;
        add_node(VARIABLE, 1, 0, 0);
        add_node(VARIABLE, 0, 0, 0);
        for (int n = 1; n <= depth; n++) {
            add_node(OR, 0, last_node(), n % 2 ? 0 : 1);
            add_node(MU, n % 2 ? 0 : 1, last_node(), 0);
            add_node(NU, n % 2 ? 0 : 1, last_node() - 1, 0);
            add_node(OR, 0, last_node() - 1, last_node());
        }
        add_node(MU, depth % 2, last_node(), 0);
        expect_rounds(forks[k].rounds, forks[k].rounds < 1000, "two loops of one variable, again and again");
    }
}

/* Below a way that edits rewrite: each DT1 doubles the paths to the loop, each AT adds one. Of a job's two lists the second alone has them. */
static void try_rewritten_paths(void)
{
    for (int k = 0; k <= 16; k++) {
        const int op = k % 2 ? AT : DT1, edits = k / 2;
        const uint32_t paths = op == DT1 ? 1u << edits : (uint32_t)edits + 1;
        build_a();
        build_r();
        add_node(k % 3 ? DIAMOND : BOX, 5, 4, 0);
        sheet.length = 0;
        add_edits(edits, op, 5, 1, 2);
        build_file();
        try_limits(4, 4, 4 * paths, true, "a loop below a way that edits rewrite");
    }
    build_r();
    add_node(DIAMOND, 4, 4, 0);
    build_sheet(DT1, 4, 2, 1);
    build_file();
    expect_rewrite(DESK_OK, 22, "diamond 4 of R through DT1 4 2 1");
    try_limits(4, 3, 6, true, "diamond 4 of R through DT1 4 2 1");
}

static void build_site_fault(uint32_t reason)
{
    switch (reason) {
    case DESK_SITE_LENGTH:
        site.length--;
        break;
    case DESK_NAMES:
        site.at[NAMES_AT + 1] = 9;
        break;
    case DESK_LABELS:
        put_slot(site.at + label_at(2), 9);
        break;
    case DESK_LINKS:
        site.at[target_at(4, 1)] = 9;
    }
}

static void build_condition_fault(uint32_t reason)
{
    switch (reason) {
    case DESK_CONDITION_LENGTH:
        cond.length--;
        break;
    case DESK_NODE:
        add_node(KINDS, 0, 0, 0);
        break;
    case DESK_EVEN_RULE:
        add_node(NOT, 0, 1, 0);
        add_node(MU, 0, 5, 0);
        break;
    case DESK_FREE_VARIABLE:
        add_node(OR, 0, 4, 1);
    }
}

static void build_sheet_fault(uint32_t reason)
{
    switch (reason) {
    case DESK_SHEET_LENGTH:
        sheet.length--;
        break;
    case DESK_EDIT:
        sheet.at[0] = OPERATIONS;
        break;
    case DESK_NOT_THROUGH:
        build_sheet(DS, 0, 0, 0);
        break;
    case DESK_TABLE_FULL:
        sheet.length = 0;
        add_edits(9, DT1, 4, 1, 2);
    }
}

/* A job that makes rounds, with one fault. */
static void build_fault(uint32_t reason)
{
    build_j();
    build_site_fault(reason);
    build_condition_fault(reason);
    build_sheet_fault(reason);
    build_file();
    if (reason == DESK_FILE)
        file.at[file.length - DESK_TRAILER_BYTES + DESK_EDITION_AT - 1] = 1;
}

/* Items 2 to 14 each beside a limit that is too low, and beside one that is too high; and item 1. */
static void try_limit_order(void)
{
    static const uint32_t limits[] = {0, 1, DESK_LIMIT_MAX, DESK_LIMIT_MAX + 1, UINT32_MAX};
    for (uint32_t reason = DESK_FILE; reason <= DESK_TABLE_FULL; reason++)
        for (size_t k = 0; k < sizeof limits / sizeof *limits; k++) {
            build_fault(reason);
            limit = larger = limits[k];
            const uint32_t wanted = limit > DESK_LIMIT_MAX ? (uint32_t)DESK_LIMIT : reason;
            expect(try_entry(JOB, entries[JOB].lengths) == wanted, "a job with a fault beside a limit");
            if (DESK_SITE_LENGTH <= reason && reason <= DESK_FREE_VARIABLE)
                expect(try_entry(LIST, entries[LIST].lengths) == wanted, "a list with a fault beside a limit");
            for (int number = 0; number < BUFFERS; number++)
                try_off_by_one(number, k % 2 == 1);
        }
    limit = larger = DESK_LIMIT_MAX;
}

static void try_rounds(void)
{
    try_counted();
    try_rewritten_paths();
    try_limit_order();
    try_paths();
    try_longest_loop();
    try_million();
    try_stacks();
    try_nested();
    try_forked();
}

/* ---- chains from slot to slot */

static void expect_chained(const struct desk_chained *wanted, const uint8_t *chain, const uint8_t *set, const char *what)
{
    static struct {
        uint8_t chain[DESK_CHAIN_BYTES], set[DESK_SET_BYTES], work[DESK_WORK_BYTES];
    } to;
    memset(&to, 0xaa, sizeof to);
    struct desk_chained r = desk_chain(site.at, site.length, cond.at, cond.length, chain_way, chain_start, to.chain, sizeof to.chain, to.set,
                                       sizeof to.set, to.work, sizeof to.work);
    expect(r.reason == wanted->reason && r.where == wanted->where && r.found == wanted->found && r.steps == wanted->steps, what);
    expect(memcmp(to.chain, chain, sizeof to.chain) == 0 && memcmp(to.set, set, sizeof to.set) == 0 && all_zero(to.work, sizeof to.work), what);
}

static const uint8_t no_chain[DESK_CHAIN_BYTES], no_set[DESK_SET_BYTES];

/* The chain has these slots, one more than steps. */
static void expect_steps(uint32_t steps, const uint8_t *slots, const char *what)
{
    uint8_t chain[DESK_CHAIN_BYTES] = {0};
    memcpy(chain, slots, steps + 1);
    expect_chained(&(struct desk_chained){DESK_OK, 0, 1, steps}, chain, no_set, what);
}

static void expect_enclosed(const uint8_t *set, const char *what)
{
    expect_chained(&(struct desk_chained){DESK_OK, 0, 0, 0}, no_chain, set, what);
}

/* A refusal, also beside the oracle. */
static void expect_start(uint32_t reason, uint32_t where, const char *what)
{
    expect_chained(&(struct desk_chained){reason, where, 0, 0}, no_chain, no_set, what);
    expect(try_entry(CHAIN, entries[CHAIN].lengths) == reason, what);
}

static void build_label(int label)
{
    cond.length = 0;
    add_node(LABEL, label, 0, 0);
}

static void build_slot(int slot)
{
    cond.length = 0;
    add_node(SLOT, slot, 0, 0);
}

/* Small sites: arcs and the slots of the goal, each up to a 0, and the chain's slots or, with steps below 0, those of the set. */
static const struct trip {
    const char *what;
    int start, steps;
    uint8_t arcs[14][2], goal[4], slots[8];
} trips[] = {
    {"the goal lists the start", 1, 0, {{1, 2}}, {1}, {1}},
    {"the goal lists the start and its neighbour", 1, 0, {{1, 2}}, {1, 2}, {1}},
    {"the goal lists the start on a ring", 2, 0, {{1, 2}, {2, 1}}, {2}, {2}},
    {"one step", 1, 1, {{1, 2}}, {2}, {1, 2}},
    {"one step to a lower slot", 2, 1, {{2, 1}}, {1}, {2, 1}},
    {"one step with the last slots", 255, 1, {{255, 254}}, {254}, {255, 254}},
    {"a line", 1, 3, {{1, 2}, {2, 3}, {3, 4}}, {4}, {1, 2, 3, 4}},
    {"a line down", 4, 3, {{4, 3}, {3, 2}, {2, 1}}, {1}, {4, 3, 2, 1}},
    {"a line from its middle", 2, 2, {{1, 2}, {2, 3}, {3, 4}}, {1, 4}, {2, 3, 4}},
    {"the nearer goal on a line", 1, 2, {{1, 2}, {2, 3}, {3, 4}}, {3, 4}, {1, 2, 3}},
    {"across the words of a set", 63, 4, {{63, 64}, {64, 128}, {128, 192}, {192, 7}}, {7}, {63, 64, 128, 192, 7}},
    {"a ring", 2, 2, {{1, 2}, {2, 3}, {3, 4}, {4, 1}}, {4}, {2, 3, 4}},
    {"nearly all of a ring", 3, 3, {{1, 2}, {2, 3}, {3, 4}, {4, 1}}, {2}, {3, 4, 1, 2}},
    {"a ring without a goal", 3, -1, {{1, 2}, {2, 3}, {3, 4}, {4, 1}}, {5}, {1, 2, 3, 4}},
    {"a ring behind a line", 1, -1, {{1, 2}, {2, 3}, {3, 2}}, {0}, {1, 2, 3}},
    {"a link to itself", 1, -1, {{1, 1}}, {2}, {1}},
    {"a link to itself and on", 1, 1, {{1, 1}, {1, 2}}, {2}, {1, 2}},
    {"a link to itself on the way", 1, 2, {{1, 2}, {2, 2}, {2, 3}}, {3}, {1, 2, 3}},
    {"a link to itself in the goal", 1, 0, {{1, 1}}, {1}, {1}},
    {"a link to itself at the end", 1, 1, {{1, 2}, {2, 2}}, {2}, {1, 2}},
    {"no link", 1, -1, {{0}}, {2}, {1}},
    {"no link and no goal", 1, -1, {{0}}, {0}, {1}},
    {"only against the way", 1, -1, {{2, 1}}, {2}, {1}},
    {"no slot has the label", 1, -1, {{1, 2}, {2, 3}}, {0}, {1, 2, 3}},
    {"the goal in another part", 1, -1, {{1, 2}, {3, 4}, {4, 3}}, {3, 4}, {1, 2}},
    {"the goal behind the start", 2, -1, {{1, 2}, {2, 3}}, {1}, {2, 3}},
    {"a slot that leads here is not reached", 2, -1, {{1, 2}, {2, 3}, {4, 3}}, {5}, {2, 3}},
    {"two ends", 1, 1, {{1, 3}, {1, 2}}, {2, 3}, {1, 2}},
    {"two ways to one end", 1, 2, {{1, 3}, {1, 2}, {2, 4}, {3, 4}}, {4}, {1, 2, 4}},
    {"a choice at each step", 1, 3, {{1, 2}, {1, 3}, {2, 4}, {2, 5}, {3, 4}, {3, 5}, {4, 6}, {4, 7}, {5, 6}, {5, 7}}, {6, 7}, {1, 2, 4, 6}},
    {"a choice at each step but the last", 1, 3, {{1, 2}, {1, 3}, {2, 4}, {2, 5}, {3, 4}, {3, 5}, {4, 6}, {4, 7}, {5, 6}, {5, 7}}, {7}, {1, 2, 4, 7}},
    {"choices with slots in reverse", 7, 3, {{7, 6}, {7, 5}, {6, 4}, {6, 3}, {5, 4}, {5, 3}, {4, 2}, {4, 1}, {3, 2}, {3, 1}}, {1, 2}, {7, 5, 3, 1}},
    {"the first difference, not the lowest end", 1, 2, {{1, 2}, {1, 3}, {2, 9}, {3, 4}}, {4, 9}, {1, 2, 9}},
    {"the first difference, not the lowest middle", 1, 3, {{1, 2}, {1, 3}, {2, 9}, {3, 4}, {9, 8}, {4, 8}}, {8}, {1, 2, 9, 8}},
    {"the lowest neighbour leads to a longer chain", 1, 2, {{1, 2}, {2, 3}, {3, 9}, {1, 5}, {5, 9}}, {9}, {1, 5, 9}},
    {"the lowest neighbour leads nowhere", 1, 2, {{1, 2}, {1, 5}, {5, 9}}, {9}, {1, 5, 9}},
    {"the lowest neighbour leads back", 3, 2, {{3, 1}, {1, 3}, {3, 3}, {3, 5}, {5, 9}}, {9}, {3, 5, 9}},
    {"the lower goal is farther", 1, 2, {{1, 4}, {4, 5}, {5, 2}, {1, 200}, {200, 201}}, {2, 201}, {1, 200, 201}},
    {"lower ways that are a step longer", 1, 3, {{1, 2}, {2, 3}, {1, 3}, {3, 4}, {4, 5}, {3, 5}, {5, 6}, {6, 7}, {5, 7}}, {7}, {1, 3, 5, 7}},
    {"a step to the goal past lower ones", 9, 1, {{9, 1}, {9, 2}, {1, 8}, {2, 8}, {9, 8}}, {8}, {9, 8}},
    {"back past the start", 5, 2, {{5, 6}, {6, 5}, {6, 4}}, {4}, {5, 6, 4}},
    {"all that is reached from two sides", 1, -1, {{1, 2}, {1, 3}, {2, 4}, {3, 4}, {4, 250}, {250, 2}}, {6}, {1, 2, 3, 4, 250}},
};

/* The slots of a trip are there, and label 0 is on the goal. The link leads over its arcs, or against them; false if it is functional and a slot
 * would have two targets. */
static bool build_trip(const struct trip *trip, int link, bool back)
{
    site.length = DESK_SITE_BYTES;
    memset(site.at, 0, site.length);
    put_slot(site.at, DESK_NIL);
    put_slot(site.at, trip->start);
    for (int k = 0; trip->goal[k]; k++) {
        put_slot(site.at, trip->goal[k]);
        put_slot(site.at + label_at(0), trip->goal[k]);
    }
    for (int k = 0; trip->arcs[k][0]; k++) {
        const int from = trip->arcs[k][back], to = trip->arcs[k][!back];
        put_slot(site.at, from);
        put_slot(site.at, to);
        if (link < GENERAL)
            put_slot(site.at + row_at(link, from), to);
        else if (site.at[target_at(link, from)] != 0)
            return false;
        else
            site.at[target_at(link, from)] = (uint8_t)to;
    }
    return true;
}

/* Label 0: alone, by a loop of the variable that the loop of the chain has, and behind so many nots that the table has no room for that loop. */
static void build_trip_goal(int form)
{
    build_label(0);
    if (form == 1) {
        add_node(VARIABLE, 15, 0, 0);
        add_node(AND, 0, 0, 1);
        add_node(OR, 0, 0, 2);
        add_node(MU, 15, 3, 0);
    }
    for (int k = 1; form == 2 && k < DESK_NODES_MAX - 1; k++)
        add_node(NOT, 0, k - 1, 0);
}

/* By all ways that its arcs allow. */
static void try_trip(const struct trip *trip)
{
    uint8_t set[DESK_SET_BYTES] = {0};
    for (int k = 0; trip->steps < 0 && trip->slots[k]; k++)
        put_slot(set, trip->slots[k]);
    for (chain_way = 0; chain_way < EVERYWHERE; chain_way++) {
        if (!build_trip(trip, (int)chain_way % LINKS, chain_way >= LINKS))
            continue;
        build_trip_goal((int)chain_way % 3);
        chain_start = (uint32_t)trip->start;
        if (trip->steps < 0)
            expect_enclosed(set, trip->what);
        else
            expect_steps((uint32_t)trip->steps, trip->slots, trip->what);
        expect(try_entry(CHAIN, entries[CHAIN].lengths) == DESK_OK, trip->what);
    }
}

static void try_trips(void)
{
    for (size_t k = 0; k < sizeof trips / sizeof *trips; k++)
        try_trip(&trips[k]);
}

/* The slots from one to the other, down or up. */
static void expect_line(int from, int to, const char *what)
{
    uint8_t slots[SLOTS];
    const int steps = from < to ? to - from : from - to;
    for (int k = 0; k <= steps; k++)
        slots[k] = (uint8_t)(from < to ? from + k : from - k);
    chain_start = (uint32_t)from;
    expect_steps((uint32_t)steps, slots, what);
}

/* All slots but 0 in one line, down by link 4. No link touches slot 0, so that the longest chain of a valid site has 255 slots, 254 steps, and
 * one byte at least is 0 behind it. */
static void try_longest_chain(void)
{
    uint8_t set[DESK_SET_BYTES] = {0};
    build_chain_site(SLOTS);
    for (int s = 1; s < SLOTS; s++) {
        chain_way = 4;
        build_label(0);
        expect_line(s, 1, "down the line of all slots");
        if (s % 16 == 15)
            try_entry(CHAIN, entries[CHAIN].lengths);
        put_slot(set, s);
        build_slot(DESK_NIL);
        expect_enclosed(set, "all slots down the line");
        chain_way = 4 + LINKS;
        build_slot(SLOTS - 1);
        expect_line(s, SLOTS - 1, "up the line of all slots");
    }
}

/* The ring of all slots, from each of them to the one before it, and with no goal. */
static void try_ring(void)
{
    uint8_t slots[SLOTS], set[DESK_SET_BYTES];
    memset(set, 0xff, sizeof set);
    flip(set, DESK_NIL);
    build_chain_site(SLOTS);
    site.at[target_at(4, 1)] = SLOTS - 1;
    chain_way = 4;
    for (int s = 1; s < SLOTS; s++) {
        for (int k = 0; k < SLOTS - 1; k++)
            slots[k] = (uint8_t)(1 + (s - 1 + SLOTS - 1 - k) % (SLOTS - 1));
        chain_start = (uint32_t)s;
        build_slot(slots[SLOTS - 2]);
        expect_steps(SLOTS - 2, slots, "around the ring of all slots");
        build_slot(DESK_NIL);
        expect_enclosed(set, "the ring of all slots without a goal");
    }
    try_entry(CHAIN, entries[CHAIN].lengths);
}

/* Slot 1 and then pairs of slots, 2 and 3 up to 254 and 255. The link leads from the last slot of a pair to both of the next; from the first one
 * as well (0), nowhere (1), or to the last one of its pair (2). */
static void build_ladder(int link, int form)
{
    build_bare();
    for (int s = 1; s < SLOTS; s++) {
        const int next = s - s % 2 + 2;
        for (int t = next; t <= next + 1 && t < SLOTS && (s % 2 == 1 || form == 0); t++)
            put_slot(site.at + row_at(link, s), t);
        if (s % 2 == 0 && form == 2)
            put_slot(site.at + row_at(link, s), s + 1);
    }
}

/* 2 to the power 126 chains of 127 steps and more, of which the first one takes the lower slot of each pair; if that one leads nowhere, or has a
 * step more, no chain of fewest steps has it before the end. */
static void try_ladders(void)
{
    enum { PAIRS = 127 };
    uint8_t slots[PAIRS + 1] = {1};
    for (int form = 0; form <= 2; form++)
        for (int end = 2 * PAIRS; end <= 2 * PAIRS + 1; end++) {
            chain_way = (uint32_t)(form + 1);
            chain_start = 1;
            build_ladder(form + 1, form);
            build_slot(end);
            for (int k = 1; k < PAIRS; k++)
                slots[k] = (uint8_t)(form == 0 ? 2 * k : 2 * k + 1);
            slots[PAIRS] = (uint8_t)end;
            expect_steps(PAIRS, slots, "a ladder");
            try_entry(CHAIN, entries[CHAIN].lengths);
        }
}

/* Every arc of a link: a step leads everywhere, and all slots but 0 are reached. */
static void try_every_arc(void)
{
    uint8_t set[DESK_SET_BYTES];
    build_bare();
    for (int s = 1; s < SLOTS; s++) {
        memset(site.at + row_at(3, s), 0xff, DESK_SET_BYTES);
        flip(site.at + row_at(3, s), DESK_NIL);
    }
    memcpy(set, site.at + row_at(3, 1), sizeof set);
    for (int s = 1; s < SLOTS; s++) {
        const int end = 1 + s * 7 % (SLOTS - 1);
        const uint8_t slots[] = {(uint8_t)s, (uint8_t)end};
        chain_way = s % 2 ? 3 : 3 + LINKS;
        chain_start = (uint32_t)s;
        build_slot(end);
        expect_steps(s != end, slots, "a step on a site with every arc");
        build_slot(DESK_NIL);
        expect_enclosed(set, "every slot that a link can reach");
    }
    try_entry(CHAIN, entries[CHAIN].lengths);
}

/* From one slot over all slots from some slot on to another: the lowest of them, whichever it is, and at each place in a set. */
static void try_lowest(void)
{
    for (int k = 0; k < 2 * SLOTS; k++) {
        const int lowest = k / 2, start = 1, end = SLOTS - 1, back = k % 2;
        const uint8_t slots[] = {(uint8_t)start, (uint8_t)lowest, (uint8_t)end};
        if (lowest <= start || lowest >= end)
            continue;
        build_bare();
        for (int s = lowest; s < end; s++) {
            put_slot(site.at + row_at(2, back ? s : start), back ? start : s);
            put_slot(site.at + row_at(2, back ? end : s), back ? s : end);
        }
        chain_way = back ? 2 + LINKS : 2;
        chain_start = (uint32_t)start;
        build_slot(end);
        expect_steps(2, slots, "the lowest slot between two");
        expect(try_entry(CHAIN, entries[CHAIN].lengths) == DESK_OK, "the lowest slot between two");
    }
}

/* Slot 0 is present, and no link touches it: the start alone, as a chain or as a set. No other slot leads to it, and none to an absent one. */
static void try_nil_chains(void)
{
    static const uint8_t nil[] = {DESK_NIL}, first[DESK_SET_BYTES] = {1};
    for (chain_way = 0; chain_way < EVERYWHERE; chain_way++) {
        build_spread();
        chain_start = DESK_NIL;
        for (int k = 0; k < 3; k++) {
            cond.length = 0;
            add_node(k == 0 ? TRUE : k == 1 ? HERE : NAME, 0, 0, 0);
            expect_steps(0, nil, "from slot 0 to slot 0");
            try_entry(CHAIN, entries[CHAIN].lengths);
        }
        build_name(1);
        expect_enclosed(first, "slot 0 alone");
        try_entry(CHAIN, entries[CHAIN].lengths);
        for (int k = 0; k < 3; k++) {
            chain_start = (uint32_t)place(1 + (int)chain_way);
            cond.length = 0;
            add_node(k == 0 ? NAME : k == 1 ? SLOT : HERE, k == 1 ? 1 : 0, 0, 0);
            if (k == 2)
                add_node(NOT, 0, 0, 0);
            const bool accepted = try_entry(CHAIN, entries[CHAIN].lengths) == DESK_OK;
            expect(accepted && !all_zero(buffers[1].at, DESK_SET_BYTES), "slot 0 or an absent slot as a goal");
        }
    }
}

/* Ways over 15 and starts over 255, also those whose low byte or low half would do; absent starts; and the two together. */
static void try_starts(void)
{
    static const uint32_t ways[] = {4, 15, 16, 17, 127, 128, 255, 256, 256 + 4, 65536 + 4, 1u << 31, (1u << 31) + 4, UINT32_MAX};
    static const uint32_t starts[] = {3, 0, 4, 5, 254, 255, 256, 256 + 3, 65536 + 1, 65536 + 3, 1u << 31, (1u << 31) + 3, UINT32_MAX};
    build_a();
    build_r();
    put_slot(site.at, 255);
    for (size_t k = 0; k < sizeof ways / sizeof *ways; k++)
        for (size_t l = 0; l < sizeof starts / sizeof *starts; l++) {
            chain_way = ways[k];
            chain_start = starts[l];
            if (chain_way > 15 || chain_start > 255 || !has_slot(site.at, (int)chain_start))
                expect_start(DESK_START, 0, "a way or a start that is refused");
            else
                expect(try_entry(CHAIN, entries[CHAIN].lengths) == DESK_OK, "a way and a start at their limits");
        }
    for (int s = 0; s < SLOTS; s++) {
        build_bare();
        flip(site.at, s == 0 ? 1 : s);
        chain_way = (uint32_t)s % EVERYWHERE;
        chain_start = (uint32_t)s;
        build_slot(s);
        expect(try_entry(CHAIN, entries[CHAIN].lengths) == (s == 0 ? DESK_OK : DESK_START), "the only absent slot as a start");
    }
}

/* Each buffer a byte short, a byte long, and of no byte. */
static void try_chain_lengths(uint32_t way, uint32_t start)
{
    chain_way = way;
    chain_start = start;
    for (int k = 0; k < 3; k++)
        for (int fault = 0; fault < 3; fault++) {
            size_t lengths[BUFFERS_MOST];
            memcpy(lengths, entries[CHAIN].lengths, sizeof lengths);
            lengths[k] = fault == 0 ? lengths[k] - 1 : fault == 1 ? lengths[k] + 1 : 0;
            expect(try_entry(CHAIN, lengths) == DESK_BUFFER_LENGTH, "a buffer of a chain with a wrong length");
        }
}

/* Items 3 to 10 and 17: each alone, each beside 17, each beside 1; and of the items before 17 each beside each other one. */
static void try_chain_order(void)
{
    static const uint32_t pairs[][2] = {{4, 3}, {16, 3}, {4, 9}, {4, 256}, {UINT32_MAX, UINT32_MAX}};
    for (uint32_t site_fault = DESK_SITE_LENGTH - 1; site_fault <= DESK_LINKS; site_fault++)
        for (uint32_t fault = DESK_CONDITION_LENGTH - 1; fault <= DESK_FREE_VARIABLE; fault++)
            for (size_t k = 0; k < sizeof pairs / sizeof *pairs; k++) {
                const bool on_site = site_fault >= DESK_SITE_LENGTH, in_goal = !on_site && fault >= DESK_CONDITION_LENGTH;
                const uint32_t reason = on_site ? site_fault : in_goal ? fault : k > 0 ? (uint32_t)DESK_START : DESK_OK;
                build_a();
                build_r();
                build_site_fault(site_fault);
                build_condition_fault(fault);
                try_chain_lengths(pairs[k][0], pairs[k][1]);
                if (reason != DESK_OK)
                    expect_start(reason, reason == DESK_NODE || reason == DESK_FREE_VARIABLE ? 5 : reason == DESK_EVEN_RULE ? 6 : 0,
                                 "the order of the items of a chain");
            }
}

/* Tables of full length as goals, and one that is a node too long. Odd nots leave label 0 out, so that slot 2 is in the goal and slot 1 is not. */
static void try_long_goals(void)
{
    static const uint8_t two[] = {2}, to_label[] = {3, 2, 1};
    chain_way = 4;
    build_a();
    for (int less = -1; less <= 4; less++) {
        build_chain(NOT, 0, DESK_NODES_MAX - less);
        chain_start = less % 2 == 0 ? 2 : 3;
        if (less < 0)
            expect_start(DESK_CONDITION_LENGTH, 0, "a goal of 2,049 nodes");
        else if (less % 2 == 0)
            expect_steps(0, two, "an odd number of nots");
        else
            expect_steps(2, to_label, "an even number of nots");
        try_entry(CHAIN, entries[CHAIN].lengths);
    }
}

/* The goal at hand and label 0, or, where the table is full, the goal alone; from the last slot of the line of so many slots down to slot 1. */
static void expect_down(int slots, const char *what)
{
    const int last = last_node();
    if (last + 1 < DESK_NODES_MAX) {
        add_node(LABEL, 0, 0, 0);
        add_node(AND, 0, last, last + 1);
    }
    chain_way = 4;
    expect_line(slots - 1, 1, what);
}

/* Goals whose lists are refused for their rounds under the highest limit; a chain has none. */
static void try_goals_without_limit(void)
{
    static uint8_t set[DESK_SET_BYTES], work[DESK_WORK_BYTES];
    for (int k = 0; k < 5; k++) {
        const int slots = k < 3 ? 30 : k == 3 ? 110 : 36;
        build_chain_site(slots);
        if (k == 0) {
            build_chain(MU, 3, 20);
        } else if (k == 1) {
            build_once();
            add_doubles(2000);
            add_node(NOT, 0, last_node(), 0);
        } else if (k == 2) {
            build_chain(NU, 15, DESK_NODES_MAX);
        } else {
            build_nested(k);
        }
        struct desk_listed r = desk_list(site.at, site.length, cond.at, cond.length, DESK_LIMIT_MAX, set, sizeof set, work, sizeof work);
        expect(r.reason == DESK_ROUNDS, "a goal with many rounds");
        expect_down(slots, "a chain to a goal with many rounds");
        if (k == 1) /* the others take the oracle too long */
            try_entry(CHAIN, entries[CHAIN].lengths);
    }
}

/* Loops as goals, also with the variable that the loop of the chain has, and goals that look along the way themselves. */
static void try_loop_goals(void)
{
    static const uint8_t three[] = {3};
    build_a();
    for (int v = 0; v < VARIABLES; v++)
        for (chain_way = 0; chain_way < EVERYWHERE; chain_way++) {
            chain_start = 3;
            cond.length = 0;
            add_node(LABEL, 0, 0, 0);
            add_node(VARIABLE, v, 0, 0);
            add_node(DIAMOND, 4, 1, 0);
            add_node(OR, 0, 0, 2);
            add_node(MU, v, 3, 0);
            expect_steps(0, three, "R lists the start");
            try_entry(CHAIN, entries[CHAIN].lengths);
            add_node(BOX, (int)chain_way, 4, 0);
            add_node(NU, v, 5, 0);
            add_node(NOT, 0, 6, 0);
            try_entry(CHAIN, entries[CHAIN].lengths);
        }
}

static void try_known_chains(void)
{
    try_trips();
    try_longest_chain();
    try_ring();
    try_ladders();
    try_every_arc();
    try_lowest();
    try_nil_chains();
    try_starts();
    try_chain_order();
    try_long_goals();
    try_loop_goals();
    try_goals_without_limit();
    chain_way = 4;
    chain_start = 1;
}

/* ---- editions */

/* Names 1 to 4 at slots 1 to 4, label 0 on 1 and 3. By each link 2, 3 and 4 lead to 1, but by this functional one the slot has another target, or
 * none. */
static void build_targets(int link, int from, int old)
{
    site.length = DESK_SITE_BYTES;
    memset(site.at, 0, site.length);
    put_slot(site.at, DESK_NIL);
    for (int s = 1; s <= 4; s++) {
        put_slot(site.at, s);
        site.at[NAMES_AT + s] = (uint8_t)s;
        for (int m = 0; m < GENERAL && s > 1; m++)
            put_slot(site.at + row_at(m, s), 1);
        for (int f = GENERAL; f < LINKS && s > 1; f++)
            site.at[target_at(f, s)] = 1;
    }
    put_slot(site.at + LABELS_AT, 1);
    put_slot(site.at + LABELS_AT, 3);
    site.at[target_at(link, from)] = (uint8_t)old;
}

/* Label 0 below a diamond or a box, and nots over it up to so many nodes. */
static void build_over(int kind, int way, int count)
{
    build_label(0);
    add_node(kind, way, 0, 0);
    for (int last = 1; last < count - 1; last++)
        add_node(NOT, 0, last, 0);
}

/* Whether such a condition without nots, over a functional link, holds at a slot of the site, by the bytes of the site. */
static bool holds(const uint8_t *at, int kind, int way, int slot)
{
    const uint8_t *targets = at + target_at(way % LINKS, 0), *labelled = at + LABELS_AT;
    bool some = false, all = true;
    for (int s = 1; s < SLOTS; s++) {
        const bool near = way < LINKS ? targets[slot] == s : slot != DESK_NIL && targets[s] == slot;
        some |= near && has_slot(labelled, s);
        all &= !near || has_slot(labelled, s);
    }
    return kind == DIAMOND ? some : all;
}

/* AT of the link from one slot to another, with the condition at hand over it: the site that it leaves differs in one target alone, and both lists of
 * the job are what that site says. */
static void try_target(int link, int from, int to, int kind, int way)
{
    static struct answers a;
    static uint8_t wanted[DESK_SITE_BYTES], set[DESK_SET_BYTES];
    const int old = site.at[target_at(link, from)];
    const bool goes = old == DESK_NIL || old == to || edition == DESK_EDITION_2;
    memset(wanted, 0, sizeof wanted);
    memset(set, 0, sizeof set);
    if (goes) {
        memcpy(wanted, site.at, sizeof wanted);
        wanted[target_at(link, from)] = (uint8_t)to;
    }
    for (int s = 0; goes && s < SLOTS; s++)
        if (holds(wanted, kind, way, s))
            put_slot(set, s);
    build_sheet(AT, link, from, to);
    ask(&a, edition);
    expect(a.applied.reason == (goes ? DESK_OK : DESK_NOT_THROUGH) && a.applied.where == 0 && a.done.reason == a.applied.reason,
           "AT over a target, or not");
    expect(memcmp(a.to.site, wanted, sizeof wanted) == 0 && memcmp(a.to.job_site, wanted, sizeof wanted) == 0, "the target that AT leaves");
    expect(memcmp(a.to.after, set, sizeof set) == 0 && memcmp(a.to.today, set, sizeof set) == 0, "a list over the target that AT leaves");
    try_entry(JOB, entries[JOB].lengths);
}

/* From each of three slots, without a target and with each, to each of four. */
static void try_targets(void)
{
    for (int k = 0; k < 3 * 5 * 4 * 4 * FUNCTIONAL; k++) {
        const int from = 1 + k % 3, old = k / 3 % 5, to = 1 + k / 15 % 4, form = k / 60 % 4, link = GENERAL + k / 240;
        const int kind = form % 2 ? BOX : DIAMOND, way = form / 2 ? link + LINKS : link;
        build_targets(link, from, old);
        build_over(kind, way, 2);
        try_target(link, from, to, kind, way);
    }
}

/* A general link has both targets, in each edition. */
static void try_second_targets(void)
{
    for (int link = 0; link < GENERAL; link++) {
        build_targets(GENERAL, 2, 1);
        build_sheet(AT, link, 2, 3);
        expect(applied()[row_at(link, 2)] == (1 << 1 | 1 << 3), "two targets by a general link");
        try_entry(APPLY, entries[APPLY].lengths);
    }
}

enum { WAY = 255 }; /* for a parameter: the way of the old node */

/* Label 0 below a diamond or a box, through AT m 1 2: the nodes behind the label, as the specification has them. */
static const struct block {
    bool replaces; /* AT of edition 2 on links 4 to 7 */
    int kind, back, count;
    uint8_t nodes[11][4];
} blocks[] = {
    {false, DIAMOND, 0, 7,
     {{DIAMOND, WAY, 0, 0}, {NAME, 1, 0, 0}, {NAME, 2, 0, 0}, {AND, 0, 3, 0}, {DIAMOND, 16, 4, 0}, {AND, 0, 2, 5}, {OR, 0, 1, 6}}},
    {false, BOX, 0, 9,
     {{BOX, WAY, 0, 0}, {NAME, 1, 0, 0}, {NOT, 0, 2, 0}, {NAME, 2, 0, 0}, {NOT, 0, 4, 0}, {OR, 0, 5, 0}, {BOX, 16, 6, 0}, {OR, 0, 3, 7},
      {AND, 0, 1, 8}}},
    {false, DIAMOND, 1, 7,
     {{DIAMOND, WAY, 0, 0}, {NAME, 2, 0, 0}, {NAME, 1, 0, 0}, {AND, 0, 3, 0}, {DIAMOND, 16, 4, 0}, {AND, 0, 2, 5}, {OR, 0, 1, 6}}},
    {false, BOX, 1, 9,
     {{BOX, WAY, 0, 0}, {NAME, 2, 0, 0}, {NOT, 0, 2, 0}, {NAME, 1, 0, 0}, {NOT, 0, 4, 0}, {OR, 0, 5, 0}, {BOX, 16, 6, 0}, {OR, 0, 3, 7},
      {AND, 0, 1, 8}}},
    {true, DIAMOND, 0, 10,
     {{NAME, 1, 0, 0}, {NOT, 0, 1, 0}, {DIAMOND, WAY, 0, 0}, {AND, 0, 2, 3}, {NAME, 1, 0, 0}, {NAME, 2, 0, 0}, {AND, 0, 6, 0},
      {DIAMOND, 16, 7, 0}, {AND, 0, 5, 8}, {OR, 0, 4, 9}}},
    {true, BOX, 0, 11,
     {{NAME, 1, 0, 0}, {BOX, WAY, 0, 0}, {OR, 0, 1, 2}, {NAME, 1, 0, 0}, {NOT, 0, 4, 0}, {NAME, 2, 0, 0}, {NOT, 0, 6, 0}, {OR, 0, 7, 0},
      {BOX, 16, 8, 0}, {OR, 0, 5, 9}, {AND, 0, 3, 10}}},
    {true, DIAMOND, 1, 10,
     {{NAME, 1, 0, 0}, {NOT, 0, 1, 0}, {AND, 0, 2, 0}, {DIAMOND, WAY, 3, 0}, {NAME, 2, 0, 0}, {NAME, 1, 0, 0}, {AND, 0, 6, 0},
      {DIAMOND, 16, 7, 0}, {AND, 0, 5, 8}, {OR, 0, 4, 9}}},
    {true, BOX, 1, 11,
     {{NAME, 1, 0, 0}, {OR, 0, 1, 0}, {BOX, WAY, 2, 0}, {NAME, 2, 0, 0}, {NOT, 0, 4, 0}, {NAME, 1, 0, 0}, {NOT, 0, 6, 0}, {OR, 0, 7, 0},
      {BOX, 16, 8, 0}, {OR, 0, 5, 9}, {AND, 0, 3, 10}}},
};

/* The block through AT of this link, byte for byte, with a not over it, whose child is the block's last node. */
static void try_block(const struct block *b, int link, int way)
{
    static uint8_t table[DESK_TABLE_BYTES], wanted[DESK_TABLE_BYTES];
    build_label(0);
    for (int k = 0; k < b->count; k++)
        add_node(b->nodes[k][0], b->nodes[k][1] == WAY ? way : b->nodes[k][1], b->nodes[k][2], b->nodes[k][3]);
    add_node(NOT, 0, b->count, 0);
    memset(wanted, 0, sizeof wanted);
    memcpy(wanted, cond.at, cond.length);
    build_over(b->kind, way, 3);
    build_sheet(AT, link, 1, 2);
    expect_rewrite(DESK_OK, (uint32_t)b->count + 2, "the nodes of a block through AT");
    desk_rewrite(cond.at, cond.length, sheet.at, sheet.length, edition, table, sizeof table);
    expect(memcmp(table, wanted, sizeof wanted) == 0, "a block through AT");
}

/* One, 8 and 64 of them in full tables, and in tables that would have a node more. Each has one diamond or box by the way again. */
static void try_full_block(const struct block *b, int link, int way)
{
    for (int times = 1; times <= DESK_EDITS_MAX; times *= 8) {
        sheet.length = 0;
        add_edits(times, AT, link, 1, 2);
        for (int more = 0; more <= 1; more++) {
            build_over(b->kind, way, DESK_NODES_MAX - (b->count - 1) * times + more);
            expect_rewrite(more ? DESK_TABLE_FULL : DESK_OK, more ? 0 : DESK_NODES_MAX, "a full table through AT");
            try_entry(REWRITE, entries[REWRITE].lengths);
        }
    }
}

static void try_blocks(void)
{
    for (size_t k = 0; k < sizeof blocks / sizeof *blocks; k++)
        for (int link = 0; link < LINKS; link++)
            if (blocks[k].replaces == (edition == DESK_EDITION_2 && link >= GENERAL)) {
                const int way = blocks[k].back ? link + LINKS : link;
                try_block(&blocks[k], link, way);
                try_full_block(&blocks[k], link, way);
            }
}

/* One node of this kind, over a label if it has children; a variable is bound. */
static void build_kind(int kind, int param)
{
    build_label(1);
    add_node(kind, param, 0, 0);
    if (kind == VARIABLE)
        add_node(MU, 0, 1, 0);
}

/* The edit at hand and a node of each kind, with each way, with label 1, with names 2 and 3, and with others. */
static void try_kinds(void)
{
    static const int with_sheet[] = {APPLY, THROUGH, REWRITE, JOB};
    for (int kind = 0; kind < KINDS; kind++) {
        const bool over = kind == DIAMOND || kind == BOX;
        for (int param = 0; param < (over ? WAYS : kind == NAME ? 4 : kind == LABEL ? 2 : 1); param++) {
            build_kind(kind, param);
            build_file();
            for (size_t k = kind == 0 ? 0 : 2; k < sizeof with_sheet / sizeof *with_sheet; k++)
                try_entry(with_sheet[k], entries[with_sheet[k]].lengths);
        }
    }
}

/* An operand for the edits below: names 2 and 3, label 1, an absent slot. */
static int operand(int op, int number, int link)
{
    switch (operands[op][number]) {
    case 'm':
    case 'f':
        return link;
    case 'p':
        return 1;
    case 'k':
        return 9;
    case '-':
        return 0;
    }
    return 2 + number % 2;
}

/* Each operation, by each link that it takes, from a slot that has a target by all functional links. */
static void try_every_edit(void)
{
    build_targets(GENERAL, 2, 1);
    for (int op = 0; op < OPERATIONS; op++)
        for (int link = 0; link < LINKS; link++) {
            const bool any = strchr(operands[op], 'm'), functional = strchr(operands[op], 'f');
            if (!any && (functional ? link < GENERAL : link > 0))
                continue;
            build_sheet(op, operand(op, 0, link), operand(op, 1, link), operand(op, 2, link));
            try_kinds();
        }
}

/* A slot that takes one target after another, 64 times. In edition 1 the second edit is stuck. */
static void try_many_targets(void)
{
    static struct answers a;
    build_targets(4, 4, DESK_NIL);
    build_r();
    sheet.length = 0;
    for (int k = 0; k < DESK_EDITS_MAX; k++)
        add_edits(1, AT, 4, 4, 1 + k % 4);
    ask(&a, edition);
    if (edition == DESK_EDITION_1) {
        expect(a.applied.reason == DESK_NOT_THROUGH && a.applied.where == 1 && a.done.reason == DESK_NOT_THROUGH && a.done.where == 1,
               "a second target in edition 1");
    } else {
        expect(a.applied.reason == DESK_OK && a.to.site[target_at(4, 4)] == 4, "the last of 64 targets");
        expect(a.done.reason == DESK_OK && a.done.nodes == 5 + 9 * DESK_EDITS_MAX && a.done.after == 3 && a.done.today == 3, "R through 64 targets");
        expect(a.to.after[0] == 0x0e && a.to.today[0] == 0x0e, "R behind 64 targets");
    }
    try_all();
}

/* What the library says of the second uplink below. */
static void expect_second_uplink(const struct answers *a)
{
    static const uint8_t both[DESK_SET_BYTES] = {0x0a};
    const struct desk_done done = {.after = 2, .today = 2, .nodes = 14, .classes = 5, .after_rounds = 3, .today_rounds = 3};
    const struct desk_done refused = {.reason = DESK_NOT_THROUGH};
    if (edition == DESK_EDITION_1) {
        expect(a->applied.reason == DESK_NOT_THROUGH && a->applied.where == 0, "a second uplink in edition 1");
        expect(memcmp(&a->done, &refused, sizeof refused) == 0, "a job with a second uplink in edition 1");
        return;
    }
    expect(a->applied.reason == DESK_OK && site.at[595] == 2 && a->to.site[595] == 1, "a second uplink in edition 2");
    expect(memcmp(&a->done, &done, sizeof done) == 0, "a job with a second uplink in edition 2");
    expect(memcmp(a->to.after, both, sizeof both) == 0 && memcmp(a->to.today, both, sizeof both) == 0, "the gateway and the probe, after and today");
}

/* The specification's probe, slot 3, with a live uplink to a relay, slot 2, that leads no further. It takes a second uplink, to the gateway, slot 1.
 * R says that an uplink chain leads to a gateway. */
static void try_second_uplink(void)
{
    static struct answers a;
    static const uint8_t stays[DESK_SET_BYTES] = {0x0c}, leads_on[] = {3, 1};
    static const int gateway[] = {1}, with_probe[] = {1, 3};
    const bool second = edition == DESK_EDITION_2;
    build_a();
    site.at[NAMES_AT + 1] = 1;
    site.at[target_at(4, 2)] = DESK_NIL;
    build_r();
    build_sheet(AT, 4, 2, 1);
    expect_set(true, 1, gateway, "an uplink chain leads to the gateway before");
    expect_rewrite(DESK_OK, second ? 14 : 11, "R through a second uplink");
    expect_through(DESK_OK, second ? 13 : 26, "through a second uplink");
    expect_works(second, "a second uplink works in edition 2 alone");
    ask(&a, edition);
    expect_second_uplink(&a);
    try_all();
    chain_start = 3;
    build_label(0);
    expect_enclosed(stays, "no uplink chain before");
    if (second) {
        memcpy(site.at, a.to.site, DESK_SITE_BYTES);
        expect_steps(1, leads_on, "the uplink chain after");
        build_r();
        expect_set(true, 2, with_probe, "an uplink chain leads to the gateway after");
    }
    chain_start = 1;
}

/* No edition but 1 and 2, whatever else is wrong behind item 2: the four that take a sheet refuse it, and give nothing. */
static void expect_unknown(uint32_t number, const char *what)
{
    static struct answers a;
    ask(&a, number);
    expect(a.applied.reason == DESK_EDITION && a.applied.where == 0, what);
    expect(a.rewritten.reason == DESK_EDITION && a.rewritten.where == 0 && a.rewritten.nodes == 0, what);
    expect(a.through.reason == DESK_EDITION && a.through.where == 0 && a.through.nodes == 0, what);
    const struct desk_done none = {.reason = DESK_EDITION};
    expect(memcmp(&a.done, &none, sizeof none) == 0 && all_zero((const uint8_t *)&a.to, sizeof a.to), what);
}

/* The reason of each function for the job at hand, which has one fault beside its edition. */
static void try_fault_beside(uint32_t fault)
{
    for (int e = 0; e < ENTRIES; e++) {
        const bool with_sheet = e == APPLY || e == REWRITE || e == THROUGH || e == JOB;
        const uint32_t reason = try_entry(e, entries[e].lengths);
        const uint32_t wanted = e == JOB && limit > DESK_LIMIT_MAX ? DESK_LIMIT : e == JOB && fault == DESK_FILE ? DESK_FILE : DESK_EDITION;
        expect(with_sheet ? reason == wanted : reason != DESK_EDITION, "a fault beside an unknown edition");
    }
}

/* Unknown editions beside each other item: 1, 16 and 2 come before 18, and all others behind it. */
static void try_edition_order(void)
{
    static const uint32_t limits[] = {0, DESK_LIMIT_MAX, DESK_LIMIT_MAX + 1};
    for (int k = 0; k < UNKNOWN_EDITIONS; k++)
        for (uint32_t fault = DESK_OK; fault <= DESK_TABLE_FULL; fault++)
            for (int l = 0; l < 3; l++) {
                edition = unknown_editions[k];
                limit = larger = limits[l];
                build_fault(fault);
                try_fault_beside(fault);
                try_off_by_one((int)(fault + (uint32_t)k) % BUFFERS, l % 2);
                if (limit <= DESK_LIMIT_MAX && fault != DESK_FILE)
                    expect_unknown(edition, "an unknown edition");
            }
    limit = larger = DESK_LIMIT_MAX;
}

/* What differs between the editions, or might, in both; and then what edition 2 alone has, or edition 1 has had before. */
static void try_known_editions(void)
{
    for (edition = DESK_EDITION_1; edition <= DESK_EDITION_2; edition++) {
        try_through_tables();
        try_through_on_a();
        try_through_runs();
        try_targets();
        try_second_targets();
        try_blocks();
        try_every_edit();
        try_many_targets();
        try_second_uplink();
    }
    edition = DESK_EDITION_2;
    try_link_ends();
    try_rewritten_paths();
    try_full_second();
    try_edition_order();
    edition = DESK_EDITION_1;
    chain_way = 4;
    chain_start = 1;
}

static void *try_known_answers(void *unused)
{
    try_chains();
    try_table_lengths();
    try_class_numbers();
    try_doubles();
    try_full_tables();
    try_full_through();
    try_before_full_through();
    try_refused_through();
    try_short_files();
    try_trailers();
    try_trailer_numbers();
    try_long_files();
    try_large_sites();
    try_many_names();
    try_every_slot();
    try_nil();
    try_rounds();
    try_known_chains();
    try_known_editions();
    return unused;
}

/* So that random jobs are the same without what came before. */
static void clear_pieces(void)
{
    struct bytes *const pieces[] = {&site, &cond, &sheet, &file};
    for (size_t k = 0; k < sizeof pieces / sizeof *pieces; k++)
        memset(pieces[k], 0, sizeof *pieces[k]);
}

/* In a thread with the stack that the header asks for. */
static void run_known_answers(void)
{
    pthread_t thread;
    pthread_attr_t attributes;
    if (pthread_attr_init(&attributes) != 0 || pthread_attr_setstacksize(&attributes, DESK_STACK_BYTES) != 0 ||
        pthread_create(&thread, &attributes, try_known_answers, NULL) != 0 || pthread_join(thread, NULL) != 0) {
        fputs("desk_test: no thread\n", stderr);
        exit(2);
    }
}

/* ---- the run */

/* Jobs of which some meet everything; if not, they are no longer made of everything. */
enum { ENOUGH = 20000 };

#define ALL(n) ((1u << (n)) - 1)

_Static_assert(NAMES == 3 * 16, "three rows of 16 names each have every name");

static const struct row {
    const char *name;
    const unsigned long *counts;
    int columns;
    unsigned wanted; /* weight 2 to the power n: column n is met, and no other */
} rows[] = {
    {"list: reason", met.reasons[LIST], REASONS, 0x187fb},
    {"apply: reason", met.reasons[APPLY], REASONS, 0x4387b},
    {"rewrite: reason", met.reasons[REWRITE], REASONS, 0x45f83},
    {"classes: reason", met.reasons[CLASSES], REASONS, 0x7b},
    {"job: reason", met.reasons[JOB], REASONS, 0x5ffff},
    {"through: reason", met.reasons[THROUGH], REASONS, 0x45803},
    {"chain: reason", met.reasons[CHAIN], REASONS, 0x207fb},
    {"through: works", met.works, 2, ALL(2)},
    {"kind", met.kinds, KINDS, ALL(KINDS)},
    {"way, diamond", met.diamonds, WAYS, ALL(WAYS)},
    {"way, box", met.boxes, WAYS, ALL(WAYS)},
    {"name, node", met.names, 16, ALL(16)},
    {"name 16 on, node", met.names + 16, 16, ALL(16)},
    {"name 32 on, node", met.names + 32, 16, ALL(16)},
    {"name, edit", met.operands, 16, ALL(16)},
    {"name 16 on, edit", met.operands + 16, 16, ALL(16)},
    {"name 32 on, edit", met.operands + 32, 16, ALL(16)},
    {"name 16 on, place", met.places, PLACES, ALL(PLACES)},
    {"edit, rewritten", met.rewritten, OPERATIONS, ALL(OPERATIONS)},
    {"edit, through", met.through, OPERATIONS, ALL(OPERATIONS)},
    {"edit, not through", met.stuck, OPERATIONS, 1u << AT | 1u << AS | 1u << DS},
    {"AP, effect", met.effects, EFFECTS, ALL(EFFECTS)},
    {"re-home, target", met.targets, TARGETS, ALL(TARGETS)},
    {"re-home, diamond", met.over[0], BOTH_WAYS, ALL(BOTH_WAYS)},
    {"re-home, box", met.over[1], BOTH_WAYS, ALL(BOTH_WAYS)},
    {"both editions", met.editions, COMPARISONS, ALL(COMPARISONS)},
    {"edition, stuck", met.sheets[0], 2, ALL(2)},
    {"edition, through", met.sheets[1], 2, ALL(2)},
    {"label refused", met.strays, STRAYS, ALL(STRAYS)},
    {"list, rounds", met.standings, STANDINGS, ALL(STANDINGS)},
    {"job, rounds", met.shareds, SHAREDS, ALL(SHAREDS)},
    {"list, walked", &met.walked, 1, ALL(1)},
    {"limit, larger", met.larger, 2, ALL(2)},
    {"chain, outcome", met.outcomes, OUTCOMES, ALL(OUTCOMES)},
    {"chain, start", met.starts, STARTS, ALL(STARTS)},
    {"chain, way", met.chain_ways, EVERYWHERE, ALL(EVERYWHERE)},
    {"set, way", met.set_ways, EVERYWHERE, ALL(EVERYWHERE)},
    {"chain, steps", met.lengths, LONGEST + 1, ALL(LONGEST + 1)},
    {"chain, all tried", met.tried, 2, ALL(2)},
    {"chain, exact", met.exact, 2, ALL(2)},
    {"buffer, short", met.shorter, BUFFERS, ALL(BUFFERS)},
    {"buffer, long", met.longer, BUFFERS, ALL(BUFFERS)},
};

static void print_rows(void)
{
    printf("%-17s", "");
    for (int n = 0; n < REASONS; n++)
        printf("%6d", n);
    for (size_t k = 0; k < sizeof rows / sizeof *rows; k++) {
        printf("\n%-17s", rows[k].name);
        for (int n = 0; n < rows[k].columns; n++)
            printf("%6lu", rows[k].counts[n]);
    }
    printf("\n");
}

static void check_rows(void)
{
    bool right = true;
    for (size_t k = 0; k < sizeof rows / sizeof *rows; k++)
        for (int n = 0; n < rows[k].columns; n++)
            if ((rows[k].wanted >> n & 1) != (rows[k].counts[n] > 0)) {
                printf("desk_test: %s %d: met %lu times\n", rows[k].name, n, rows[k].counts[n]);
                right = false;
            }
    if (!right)
        exit(1);
}

int main(int argc, char **argv)
{
    int jobs = argc > 1 ? atoi(argv[1]) : ENOUGH;
    seed = argc > 2 ? strtoull(argv[2], NULL, 10) : 1;
    make_areas();
    run_known_answers();
    clear_pieces();
    memset(&met, 0, sizeof met);
    for (job = 0; job < jobs; job++) {
        build_job(seed, job);
        try_all();
        try_off_by_one(job % BUFFERS, job / BUFFERS % 2 == 1);
        try_wrong_lengths();
        try_editions();
        if (job % 4 == 0)
            try_route();
    }
    printf("seed %llu, %d jobs, half of them damaged; %lu lists with a slot\n", (unsigned long long)seed, jobs, met.listed);
    print_rows();
    if (jobs >= ENOUGH)
        check_rows();
    printf("no difference\n");
    return 0;
}
