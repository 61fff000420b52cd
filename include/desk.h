/* The desk for C: seven functions over bytes, in libdesk.a (tools/archive), for x86-64-v2 Linux (popcnt, SSE4).
 *
 * docs/SPEC.md says what the bytes mean and has a glossary. This file names all the numbers, so that no caller has to write one: the
 * offset of each part of a site, the kinds of node, the ways, the operations, the editions, the lengths of buffers and the reasons for a refusal.
 * examples/plan.c shows them in use.
 *
 * Every input gets an answer. Either the reason is DESK_OK and the result is complete; or the reason is the first item that the input
 * meets. In that case `where` is the node or edit at fault, counted from 0 (0 if the item names none), every result and work buffer is
 * all zeros, whatever its length, and all other numbers of the answer are 0. Items are tested in the order 1, 16, 2, 18, 3 to 10, 17, 11 to 15,
 * each over all the inputs of the function.
 *
 * Each pointer must be valid for its length and must not be NULL, even for a length of 0. No result or work buffer may overlap another
 * buffer or an input. Inputs are only read. Nothing is kept between calls, so several threads may call at the same time.
 *
 * Stack. No contract covers it; these figures were measured, of the library as the older kit rattle-kit-5b-plain built it, and rounded up. A thread
 * with DESK_STACK_BYTES of stack can make every call, and the tests are run in one. By function:
 *
 *   desk_apply     under 1 KB for any input
 *   desk_classes   142 KB for any site
 *   desk_list      21 KB, plus 290 bytes for each node on the longest path of the condition, or 600 if the node is a mu or nu:
 *                  0.61 MB for a line of 2,048 nodes, 1.23 MB for 2,047 nested loops
 *   desk_rewrite   45 KB, plus 110 bytes for each node on the longest path of the condition; at most 0.12 MB was measured, for a line of
 *                  2,048 nodes
 *   desk_job       the largest of the above, plus 5 KB. It lists two tables, the condition and the REWRITTEN one, and the
 *                  second has longer paths: DS, for instance, puts three nodes on the path for each diamond
 *   desk_through   31 KB, plus 110 bytes for each node on the longest path of the table; at most 42 KB was measured, for a path of 249 nodes
 *   desk_chain     that of desk_list for the goal, plus 1 KB
 *
 * Rounds. A round is one evaluation of the body of a mu or nu. A mu starts from the empty set, a nu from the set of all slots, and both go on
 * until the body gives back the set that it was given; this last evaluation counts too. The rounds of a list are those of the whole tree of its
 * condition: both operands of an or or an and are evaluated, whatever the other is; a loop that is shared counts once for each path to it from the
 * last node; a loop inside another starts again, and counts, in every round of the other, also if it does not read the other's variable; a loop
 * that the last node does not reach counts 0. desk_list and desk_job take a limit on this number, from 0 to DESK_LIMIT_MAX, and their answers carry
 * the number:
 *
 * - Rounds up to the limit are answered, more are refused with DESK_ROUNDS, and this is the last test of all.
 * - An answer, or a refusal that is not DESK_ROUNDS, is the same under each larger limit up to DESK_LIMIT_MAX: every number and every byte.
 * - Each of the two lists of a job has the whole limit for itself. The rewritten table's list can make more rounds than the other: the blocks of
 *   AT and DT1 have the node below a diamond or a box twice, so each of these edits can double the rounds of the loops below it.
 * - desk_chain takes no limit and counts no rounds: it lists its goal however many that takes.
 *
 * Time. The rounds of nested loops multiply, since each loop makes up to DESK_SLOT_COUNT + 1 of them. The limit bounds them, and so the time: a
 * round evaluates each node of its body at most once, and what does not depend on a variable that has changed is not evaluated again, though it
 * counts. In the library of the older kit, on a line of 256 slots, one loop took 0.1 ms, two nested loops, 66,000 rounds, took 21 ms, and sixteen were
 * refused under the highest limit after 0.34 s. A round can take far longer: with 1,990 diamonds in the body, on a site with every arc, 0.8 ms, so
 * that the highest limit allows a quarter of an hour. If conditions come from strangers, give a limit that suits your time. desk_chain takes none, and a goal of
 * sixteen nested loops can keep it for ever: list a stranger's goal with desk_list first, under a limit. desk_chain lists it again in about the
 * same time; the search for the chain or the set comes on top, and does not depend on the goal's length.
 */
#ifndef DESK_H
#define DESK_H

#include <stddef.h>
#include <stdint.h>

#ifdef __cplusplus
extern "C" {
#endif

/* ---- how many there are: slots, labels, names, links and variables, each numbered from 0 */

#define DESK_SLOT_COUNT 256
#define DESK_LABEL_COUNT 16
#define DESK_NAME_COUNT 48
#define DESK_LINK_COUNT 8
#define DESK_VARIABLE_COUNT 16

/* Links below this number are general (a slot can have any number of targets), the others functional (at most one target). */
#define DESK_GENERAL_LINKS 4
#define DESK_FUNCTIONAL_LINKS (DESK_LINK_COUNT - DESK_GENERAL_LINKS)

/* Slot 0 is "off-site". Name 0 is always at it, it has no label, and a slot without a target by a functional link has 0 in the target's byte. */
#define DESK_NIL 0

/* ---- sets of slots: slot s is the bit DESK_SET_WEIGHT(s) of byte DESK_SET_BYTE(s) */

#define DESK_SET_BYTES (DESK_SLOT_COUNT / 8)
#define DESK_SET_BYTE(s) ((s) / 8)
#define DESK_SET_WEIGHT(s) (1 << (s) % 8)

/* ---- the site: where each part begins, in bytes from the start of the site */

#define DESK_PRESENT_AT 0                                                              /* the present slots, a set */
#define DESK_LABELS_AT (DESK_PRESENT_AT + DESK_SET_BYTES)                              /* a set for each label */
#define DESK_NAMES_AT (DESK_LABELS_AT + DESK_LABEL_COUNT * DESK_SET_BYTES)             /* a slot for each name */
#define DESK_TARGETS_AT (DESK_NAMES_AT + DESK_NAME_COUNT)                              /* links 4 to 7: a slot for each slot */
#define DESK_ROWS_AT (DESK_TARGETS_AT + DESK_FUNCTIONAL_LINKS * DESK_SLOT_COUNT)       /* links 0 to 3: a set for each slot */
#define DESK_SITE_BYTES (DESK_ROWS_AT + DESK_GENERAL_LINKS * DESK_SLOT_COUNT * DESK_SET_BYTES)

#define DESK_LABEL_AT(p) (DESK_LABELS_AT + (p) * DESK_SET_BYTES)                       /* the set of label p */
#define DESK_NAME_AT(n) (DESK_NAMES_AT + (n))                                          /* the slot of name n */
#define DESK_TARGET_AT(f, s) (DESK_TARGETS_AT + ((f) - DESK_GENERAL_LINKS) * DESK_SLOT_COUNT + (s)) /* f 4 to 7: the target of slot s */
#define DESK_ROW_AT(m, s) (DESK_ROWS_AT + ((m) * DESK_SLOT_COUNT + (s)) * DESK_SET_BYTES) /* m 0 to 3: the set of slot s's targets */

/* ---- the condition: 1 to DESK_NODES_MAX nodes, each child before its node; the last node is the condition */

#define DESK_NODE_BYTES 6        /* kind, parameter, left (2 bytes, low byte first), right (2 bytes) */
#define DESK_NODES_MAX 2048
#define DESK_CONDITION_BYTES_MAX (DESK_NODES_MAX * DESK_NODE_BYTES)

/* The comments name the parameter and the children that a kind uses; the other fields are 0. */
enum desk_kind {
    DESK_KIND_TRUE = 0,         /* every slot */
    DESK_KIND_HERE = 1,         /* the present slots */
    DESK_KIND_LABEL = 2,        /* parameter: a label. The slots that have the label */
    DESK_KIND_NAME = 3,         /* parameter: a name. The slot of the name */
    DESK_KIND_VARIABLE = 4,     /* parameter: a variable, bound by a mu or nu above it. The variable's current set */
    DESK_KIND_NOT = 5,          /* left. All slots that are not in left, absent ones too */
    DESK_KIND_OR = 6,           /* left, right. The slots in one of the two, or in both */
    DESK_KIND_AND = 7,          /* left, right. The slots in both */
    DESK_KIND_DIAMOND = 8,      /* parameter: a way; left. The slots with some neighbour by the way in left */
    DESK_KIND_BOX = 9,          /* parameter: a way; left. The slots whose neighbours by the way are all in left, also those without any */
    DESK_KIND_MU = 10,          /* parameter: a variable; left. The least fixed point of left */
    DESK_KIND_NU = 11,          /* parameter: a variable; left. The greatest fixed point of left */
    DESK_KIND_SLOT = 12         /* parameter: a slot, present or absent. That slot alone */
};

/* The ways of diamonds and boxes. Way m, below DESK_LINK_COUNT, follows link m. DESK_REVERSE(m) goes against link m. DESK_EVERYWHERE, called
 * E, leads from every slot to all DESK_SLOT_COUNT slots, absent ones too. */
#define DESK_REVERSE(m) ((m) + DESK_LINK_COUNT)
#define DESK_EVERYWHERE (2 * DESK_LINK_COUNT)

/* The bytes of a node and of an edit, for the initializer of an array: { DESK_NODE_INIT(..), DESK_NODE_INIT(..), .. } */
#define DESK_NODE_INIT(kind, parameter, left, right) (kind), (parameter), (left) % 256, (left) / 256, (right) % 256, (right) / 256
#define DESK_EDIT_INIT(operation, first, second, third) (operation), (first), (second), (third)

/* ---- the sheet: 0 to DESK_EDITS_MAX edits */

#define DESK_EDIT_BYTES 4        /* operation and three operands */
#define DESK_EDITS_MAX 64
#define DESK_SHEET_BYTES_MAX (DESK_EDITS_MAX * DESK_EDIT_BYTES)

/* The edition of a sheet: a number that goes with it and is not among its bytes. It says what DESK_OP_AT does on links 4 to 7 where a slot has
 * another target already: in edition 1 it does not go through, in edition 2 it replaces that target. All else is the same in both. Any other
 * number is refused with DESK_EDITION. */
#define DESK_EDITION_1 1
#define DESK_EDITION_2 2

/* The comments name the operands in their order; the others are 0. n, n1 and n2 are names, @n is the slot of name n, p is a label, m any link,
 * f a link from 4 to 7, k a slot. */
enum desk_operation {
    DESK_OP_CN1 = 0,            /* n1 n2     n1, not 0, moves to @n2 */
    DESK_OP_CN2 = 1,            /* n1 n2 f   n1, not 0, moves to the f-target of @n2, or to nil */
    DESK_OP_AP = 2,             /* n p       @n, unless it is nil, gains label p */
    DESK_OP_DP = 3,             /* n p       @n loses label p */
    DESK_OP_AT = 4,             /* m n1 n2   a link m from @n1 to @n2 is added; neither is nil. For m 4 to 7: in edition 1, @n1 has no m-target or
                                 *           has @n2; in edition 2, @n2 replaces the m-target that @n1 has, if it has one */
    DESK_OP_DT1 = 5,            /* m n1 n2   that link is removed, if it is there */
    DESK_OP_DT2 = 6,            /* f n       the f-target of @n is removed, if there is one */
    DESK_OP_AS = 7,             /* n k       slot k, absent before, becomes present; n, not 0, moves to it */
    DESK_OP_DS = 8              /* n         @n, not nil, becomes absent; its labels and links are removed; names there move to nil */
};

/* ---- the job file: site, condition, sheet and trailer, with nothing between them */

#define DESK_FILE_BYTES_MAX 65536
#define DESK_NUMBER_BYTES 4      /* an unsigned number, low byte first */

/* Four numbers: the distances from the first byte of the trailer back to the first byte of the sheet, of the condition and of the site; and the
 * edition of the sheet. */
#define DESK_TRAILER_BYTES (4 * DESK_NUMBER_BYTES)
#define DESK_TO_SHEET_AT 0
#define DESK_TO_CONDITION_AT DESK_NUMBER_BYTES
#define DESK_TO_SITE_AT (2 * DESK_NUMBER_BYTES)
#define DESK_EDITION_AT (3 * DESK_NUMBER_BYTES)

/* ---- the lengths of the other buffers */

#define DESK_CLASSES_BYTES DESK_SLOT_COUNT           /* the class number of each slot */
#define DESK_CHAIN_BYTES DESK_SLOT_COUNT             /* the slots of a chain, start first, then zeros */
#define DESK_TABLE_BYTES DESK_CONDITION_BYTES_MAX    /* a table of desk_rewrite or desk_through, then zeros */
#define DESK_WORK_BYTES (DESK_NODES_MAX * DESK_SET_BYTES) /* all zeros at return */

#define DESK_STACK_BYTES 4194304

/* The highest limit on rounds that desk_list and desk_job take. */
#define DESK_LIMIT_MAX 1000000

/* ---- why an input is refused: the items of docs/SPEC.md, "Reasons". `where` is 0 unless the comment names it */
enum desk_reason {
    DESK_OK = 0,
    DESK_BUFFER_LENGTH = 1,     /* a result or work buffer does not have its stated length */
    DESK_FILE = 2,              /* the file has under 16 or over 65,536 bytes, a distance is below the one before it, or the third is not
                                 * the file's length less 16 */
    DESK_SITE_LENGTH = 3,       /* the site does not have DESK_SITE_BYTES bytes */
    DESK_NAMES = 4,             /* slot 0 is absent, name 0 is not at slot 0, or a name is at an absent slot */
    DESK_LABELS = 5,            /* a label is on slot 0 or on an absent slot */
    DESK_LINKS = 6,             /* a link starts or ends at slot 0 or at an absent slot */
    DESK_CONDITION_LENGTH = 7,  /* the condition's length is not a multiple of 6 from 6 to 12,288 */
    DESK_NODE = 8,              /* a node has an unknown kind, a parameter out of range, a child that is not lower than the node, or an
                                 * unused field that is not 0; where: the lowest such node */
    DESK_EVEN_RULE = 9,         /* a mu or nu has its variable under an odd number of nots; where: the lowest such mu or nu */
    DESK_FREE_VARIABLE = 10,    /* the last node has a free variable; where: the last node */
    DESK_SHEET_LENGTH = 11,     /* the sheet's length is not a multiple of 4 from 0 to 256 */
    DESK_EDIT = 12,             /* an edit has an unknown operation, an operand out of range or forbidden, or an unused operand that is
                                 * not 0; where: the lowest such edit */
    DESK_NOT_THROUGH = 13,      /* an edit does not go through on the site that the edits before it leave; where: the first such edit */
    DESK_TABLE_FULL = 14,       /* after some edit the table of desk_rewrite or desk_through has over 2,048 nodes */
    DESK_ROUNDS = 15,           /* a list makes more rounds than the limit; tested after all others */
    DESK_LIMIT = 16,            /* the limit is over DESK_LIMIT_MAX; tested right after DESK_BUFFER_LENGTH */
    DESK_START = 17,            /* the way of a chain is over 15, or its start is absent or over 255; tested right after DESK_FREE_VARIABLE */
    DESK_EDITION = 18           /* the edition is neither 1 nor 2; tested right after DESK_FILE */
};

/* ---- the answers. `reason` is a number of enum desk_reason */

struct desk_listed {
    uint32_t reason, where;
    uint32_t count;             /* how many slots are in the set */
    uint32_t rounds;            /* how many rounds listing made */
};

struct desk_applied {
    uint32_t reason, where;
};

struct desk_rewritten {
    uint32_t reason, where;
    uint32_t nodes;             /* how many nodes the table has */
};

struct desk_classed {
    uint32_t reason, where;
    uint32_t count;             /* how many different class numbers there are */
};

struct desk_chained {
    uint32_t reason, where;
    uint32_t found;             /* 1 if a chain is given, 0 if the set is */
    uint32_t steps;             /* how many steps the chain has: 0 if the goal lists the start, and where no chain is given */
};

struct desk_done {
    uint32_t reason, where;
    uint32_t after, today;      /* how many slots the condition lists on the site after, and the rewritten table on the site of the file */
    uint32_t nodes;             /* how many nodes the rewritten table has */
    uint32_t classes;           /* how many different class numbers the site after has */
    uint32_t after_rounds;      /* how many rounds the condition's list on the site after made */
    uint32_t today_rounds;      /* and how many the rewritten table's on the site of the file */
};

/* Writes the set of slots where the condition holds on the site into `set` (DESK_SET_BYTES), if that takes no more rounds than the limit. Items 1,
 * 16, 3 to 10, 15. */
struct desk_listed desk_list(const uint8_t *site, size_t site_len, const uint8_t *cond, size_t cond_len, uint32_t limit,
                             uint8_t *set, size_t set_len, uint8_t *work, size_t work_len);

/* Writes the site that the whole sheet, of this edition, leaves into `result` (DESK_SITE_BYTES). Items 1, 18, 3 to 6, 11 to 13. */
struct desk_applied desk_apply(const uint8_t *site, size_t site_len, const uint8_t *sheet, size_t sheet_len, uint32_t edition,
                               uint8_t *result, size_t result_len);

/* Writes the condition, rewritten through the sheet of this edition, into `result` (DESK_TABLE_BYTES). On each site on which the sheet goes through,
 * the rewritten condition lists what the condition lists on the site that the sheet leaves. The table is the first DESK_NODE_BYTES times `nodes`
 * bytes, and can be passed to desk_list as it is. Items 1, 18, 7 to 12, 14. */
struct desk_rewritten desk_rewrite(const uint8_t *cond, size_t cond_len, const uint8_t *sheet, size_t sheet_len, uint32_t edition,
                                   uint8_t *result, size_t result_len);

/* Writes the condition for the sheet's going through into `result` (DESK_TABLE_BYTES), from the sheet and its edition alone: on each valid site it
 * lists every slot if the sheet goes through, and no slot if it does not. In edition 2 it does not ask whether a target is there already: AT on links
 * 4 to 7 has the condition that it has on links 0 to 3. The table is the first DESK_NODE_BYTES times `nodes` bytes, and can be passed to
 * desk_list as it is. Items 1, 18, 11, 12, 14; never 13, since no site is given. */
struct desk_rewritten desk_through(const uint8_t *sheet, size_t sheet_len, uint32_t edition, uint8_t *result, size_t result_len);

/* Writes the class number of each slot into `classes` (DESK_CLASSES_BYTES): the lowest slot that some likeness (bisimulation) relates to it.
 * Items 1, 3 to 6. */
struct desk_classed desk_classes(const uint8_t *site, size_t site_len, uint8_t *classes, size_t classes_len);

/* Gives a chain of fewest steps from the slot `start` to a slot that the condition, the goal, lists on the site. Each step leads from a slot to one
 * of its neighbours by the way, 0 to 15; DESK_EVERYWHERE is refused. Among chains of equally few steps it is the one with the lowest slot at the
 * first place where they differ, counted from the start.
 *
 * - If there is one, `found` is 1, `steps` is how many steps it has, and `chain` (DESK_CHAIN_BYTES) has its steps + 1 slots, the start first, then
 *   zeros. `set` is all zeros. With 0 steps the goal lists the start, and the chain is the start alone.
 * - If there is none, `found` and `steps` are 0, and `set` (DESK_SET_BYTES) has all slots that can be reached from the start by any number of steps,
 *   the start among them: every neighbour by the way of a slot in the set is in it, and no slot that the goal lists is. `chain` is all zeros.
 *
 * There is a chain exactly if the condition mu 15 (goal or diamond `way` of variable 15) lists the start, also where its table would have over
 * DESK_NODES_MAX nodes. No slot comes twice in a chain, and slot 0 has no neighbours, so that a chain has at most 254 steps. Slot 0 may be the
 * start: its chain of 0 steps is all zeros, and `found` tells it from none; its set is slot 0 alone.
 *
 * Items 1, 3 to 10, 17. There is no limit on rounds, so 15 and 16 are never met. */
struct desk_chained desk_chain(const uint8_t *site, size_t site_len, const uint8_t *cond, size_t cond_len, uint32_t way, uint32_t start,
                               uint8_t *chain, size_t chain_len, uint8_t *set, size_t set_len, uint8_t *work, size_t work_len);

/* Runs a job file, if neither list takes more rounds than the limit; the edition is in its trailer. Writes the site after into `site`, the rewritten
 * table into `table`, the condition's set on the site after into `after`, the rewritten table's set on the site of the file into `today`, and the
 * class numbers of the site after into `classes`. Items 1, 16, 2, 18, 3 to 15. */
struct desk_done desk_job(const uint8_t *file, size_t file_len, uint32_t limit, uint8_t *site, size_t site_len,
                          uint8_t *table, size_t table_len, uint8_t *after, size_t after_len, uint8_t *today, size_t today_len,
                          uint8_t *classes, size_t classes_len, uint8_t *work, size_t work_len);

#ifdef __cplusplus
}
#endif

#endif
