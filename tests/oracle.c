/* The desk's seven functions once more: plain, in another way than the library, from the specification alone. */
#include "oracle.h"

#include <stdlib.h>
#include <string.h>

/* ---- the site */

static bool bit(const uint8_t *set, int slot)
{
    return set[slot / 8] >> slot % 8 & 1;
}

static void add_arc(struct arcs *arcs, int from, int to)
{
    arcs->at[arcs->count++] = (struct arc){(uint8_t)from, (uint8_t)to};
}

static void read_row(struct arcs *arcs, int from, const uint8_t *row)
{
    static const uint8_t nothing[DESK_SET_BYTES];
    if (memcmp(row, nothing, sizeof nothing) == 0)
        return;
    for (int t = 0; t < SLOTS; t++)
        if (bit(row, t))
            add_arc(arcs, from, t);
}

void model_read(struct model *model, const uint8_t *site)
{
    for (int s = 0; s < SLOTS; s++) {
        model->present[s] = bit(site, s);
        for (int p = 0; p < LABELS; p++)
            model->label[p][s] = bit(site + label_at(p), s);
    }
    memcpy(model->name, site + NAMES_AT, NAMES);
    for (int m = 0; m < LINKS; m++)
        model->link[m].count = 0;
    for (int f = GENERAL; f < LINKS; f++)
        for (int s = 0; s < SLOTS; s++)
            if (site[target_at(f, s)])
                add_arc(&model->link[f], s, site[target_at(f, s)]);
    for (int m = 0; m < GENERAL; m++)
        for (int s = 0; s < SLOTS; s++)
            read_row(&model->link[m], s, site + row_at(m, s));
}

static void model_write(const struct model *model, uint8_t *site)
{
    memset(site, 0, DESK_SITE_BYTES);
    for (int s = 0; s < SLOTS; s++) {
        if (model->present[s])
            put_slot(site, s);
        for (int p = 0; p < LABELS; p++)
            if (model->label[p][s])
                put_slot(site + label_at(p), s);
    }
    memcpy(site + NAMES_AT, model->name, NAMES);
    for (int m = 0; m < LINKS; m++)
        for (size_t k = 0; k < model->link[m].count; k++) {
            struct arc a = model->link[m].at[k];
            if (m < GENERAL)
                put_slot(site + row_at(m, a.from), a.to);
            else
                site[target_at(m, a.from)] = a.to;
        }
}

/* Items 4 to 6. */
static uint32_t site_fault(const struct model *model)
{
    if (!model->present[0] || model->name[0] != 0)
        return 4;
    for (int n = 0; n < NAMES; n++)
        if (!model->present[model->name[n]])
            return 4;
    for (int p = 0; p < LABELS; p++)
        for (int s = 0; s < SLOTS; s++)
            if (model->label[p][s] && (s == DESK_NIL || !model->present[s]))
                return 5;
    for (int m = 0; m < LINKS; m++)
        for (size_t k = 0; k < model->link[m].count; k++) {
            struct arc a = model->link[m].at[k];
            if (a.from == 0 || a.to == 0 || !model->present[a.from] || !model->present[a.to])
                return 6;
        }
    return 0;
}

/* ---- the condition */

struct node {
    int kind, param, left, right;
};

static bool is_loop(const struct node *node)
{
    return node->kind == MU || node->kind == NU;
}

static void table_read(struct node *table, const uint8_t *bytes, size_t count)
{
    for (size_t i = 0; i < count; i++, bytes += DESK_NODE_BYTES)
        table[i] = (struct node){bytes[0], bytes[1], bytes[2] + 256 * bytes[3], bytes[4] + 256 * bytes[5]};
}

static void table_write(const struct node *table, size_t count, uint8_t *bytes)
{
    memset(bytes, 0, DESK_TABLE_BYTES);
    for (size_t i = 0; i < count; i++, bytes += DESK_NODE_BYTES) {
        const int fields[DESK_NODE_BYTES] = {table[i].kind,       table[i].param,       table[i].left % 256,
                                             table[i].left / 256, table[i].right % 256, table[i].right / 256};
        for (int k = 0; k < DESK_NODE_BYTES; k++)
            bytes[k] = (uint8_t)fields[k];
    }
}

/* Item 8 for one node. */
static bool node_fault(const struct node *node, int number)
{
    /* how many parameters each kind has */
    static const int params[KINDS] = {1, 1, LABELS, NAMES, VARIABLES, 1, 1, 1, WAYS, WAYS, VARIABLES, VARIABLES, SLOTS};
    if (node->kind >= KINDS || node->param >= params[node->kind])
        return true;
    int used = children(node->kind);
    return (used >= 1 ? node->left >= number : node->left != 0) || (used == 2 ? node->right >= number : node->right != 0);
}

/* Whether a path leads from the node to a free occurrence of the variable with this parity of nots (2: any). */
static bool occurs(const struct node *table, int number, int variable, int parity, int wanted, bool (*seen)[2])
{
    const struct node *node = &table[number];
    if (seen[number][parity])
        return false;
    seen[number][parity] = true;
    if (node->kind == VARIABLE)
        return node->param == variable && (wanted == 2 || parity == wanted);
    if (is_loop(node) && node->param == variable)
        return false;
    if (node->kind == NOT)
        parity = 1 - parity;
    int used = children(node->kind);
    return (used >= 1 && occurs(table, node->left, variable, parity, wanted, seen)) ||
           (used == 2 && occurs(table, node->right, variable, parity, wanted, seen));
}

/* Items 8 to 10. */
static uint32_t condition_fault(const struct node *table, int count, uint32_t *where)
{
    static bool seen[DESK_NODES_MAX][2];
    for (int i = 0; i < count; i++)
        if (node_fault(&table[i], i)) {
            *where = (uint32_t)i;
            return 8;
        }
    for (int i = 0; i < count; i++) {
        memset(seen, 0, sizeof seen[0] * (size_t)count);
        if (is_loop(&table[i]) && occurs(table, table[i].left, table[i].param, 0, 1, seen)) {
            *where = (uint32_t)i;
            return 9;
        }
    }
    for (int v = 0; v < VARIABLES; v++) {
        memset(seen, 0, sizeof seen[0] * (size_t)count);
        if (occurs(table, count - 1, v, 0, 2, seen)) {
            *where = (uint32_t)count - 1;
            return 10;
        }
    }
    return 0;
}

/* ---- listing */

struct slots {
    bool has[SLOTS];
};

static struct slots all_slots(bool value)
{
    struct slots set;
    memset(set.has, value, sizeof set.has);
    return set;
}

/* An arc of a link as a way goes over it: ways 8 to 15 against it. */
static struct arc along(int way, struct arc a)
{
    return way < LINKS ? a : (struct arc){a.to, a.from};
}

/* Diamond (some neighbour is in the set) and box (every neighbour is). */
static struct slots over_way(const struct model *model, int way, bool diamond, const struct slots *of)
{
    struct slots set;
    if (way == EVERYWHERE) {
        bool found = false;
        for (int s = 0; s < SLOTS; s++)
            found |= of->has[s] == diamond;
        return all_slots(found == diamond);
    }
    set = all_slots(!diamond);
    const struct arcs *arcs = &model->link[way % LINKS];
    for (size_t k = 0; k < arcs->count; k++) {
        struct arc a = along(way, arcs->at[k]);
        if (of->has[a.to] == diamond)
            set.has[a.from] = diamond;
    }
    return set;
}

/* Rounds are counted up to one more than the highest limit. */
enum { OVER = DESK_LIMIT_MAX + 1 };

static uint32_t sum(uint32_t one, uint32_t other)
{
    return one + other < OVER ? one + other : OVER;
}

/* A node's set, and the rounds on all paths down from it. */
struct found {
    struct slots set;
    uint32_t rounds;
};

/* A table that is evaluated on a site: up to OVER rounds, where the sets no longer matter, or to the end however many they are. */
struct asked {
    const struct model *model;
    const struct node *table;
    bool to_the_end;
};

static bool goes_on(const struct asked *asked, uint32_t rounds)
{
    return asked->to_the_end || rounds < OVER;
}

static struct found value(const struct asked *, int, const struct slots *);

/* Mu from nothing, nu from everything, until the body gives back what it was given; the body is evaluated afresh each time, with all the loops in
 * it, and the last time counts too. */
static struct found loop(const struct asked *asked, const struct node *node, const struct slots *variables)
{
    struct slots inner[VARIABLES];
    struct found next = {all_slots(node->kind == NU), 0};
    uint32_t rounds = 0;
    memcpy(inner, variables, sizeof inner);
    do {
        inner[node->param] = next.set;
        next = value(asked, node->left, inner);
        rounds = sum(rounds, sum(1, next.rounds));
    } while (memcmp(&next.set, &inner[node->param], sizeof next.set) != 0 && goes_on(asked, rounds));
    next.rounds = rounds;
    return next;
}

/* The set of a node without a body, from the sets of its children. */
static struct slots node_value(const struct model *model, const struct node *node, const struct slots *left, const struct slots *right,
                               const struct slots *variables)
{
    struct slots set = all_slots(false);
    switch (node->kind) {
    case TRUE:
        return all_slots(true);
    case VARIABLE:
        return variables[node->param];
    case DIAMOND:
    case BOX:
        return over_way(model, node->param, node->kind == DIAMOND, left);
    case NAME:
        set.has[model->name[node->param]] = true;
        return set;
    case SLOT:
        set.has[node->param] = true;
        return set;
    }
    for (int s = 0; s < SLOTS; s++)
        set.has[s] = node->kind == HERE    ? model->present[s]
                     : node->kind == LABEL ? model->label[node->param][s]
                     : node->kind == NOT   ? !left->has[s]
                     : node->kind == OR    ? left->has[s] | right->has[s]
                                           : left->has[s] & right->has[s];
    return set;
}

/* A node, from what was found for its children. */
static struct found node_found(const struct asked *asked, const struct node *node, const struct found *found, const struct slots *variables)
{
    const struct found *left = &found[node->left], *right = &found[node->right];
    if (is_loop(node))
        return loop(asked, node, variables);
    int used = children(node->kind);
    return (struct found){node_value(asked->model, node, &left->set, &right->set, variables),
                          sum(used >= 1 ? left->rounds : 0, used == 2 ? right->rounds : 0)};
}

/* The nodes that a node needs outside of loops; each loop looks after its own body. */
static void mark_needed(const struct node *table, int root, bool *needed)
{
    memset(needed, 0, (size_t)root + 1);
    needed[root] = true;
    for (int i = root; i >= 0; i--)
        if (needed[i] && !is_loop(&table[i])) {
            if (children(table[i].kind) >= 1)
                needed[table[i].left] = true;
            if (children(table[i].kind) == 2)
                needed[table[i].right] = true;
        }
}

/* The set of a node and its rounds: first the nodes that it needs, in ascending order. Of a node that is over, so is each that needs it. */
static struct found value(const struct asked *asked, int root, const struct slots *variables)
{
    struct found *found = malloc(sizeof *found * ((size_t)root + 1)), result;
    bool *needed = malloc((size_t)root + 1);
    mark_needed(asked->table, root, needed);
    result.rounds = 0;
    for (int i = 0; i <= root && goes_on(asked, result.rounds); i++)
        if (needed[i])
            result = found[i] = node_found(asked, &asked->table[i], found, variables);
    free(found);
    free(needed);
    return result;
}

/* Writes the set and gives how many slots it has. */
static uint32_t set_write(const struct slots *slots, uint8_t *set)
{
    uint32_t count = 0;
    memset(set, 0, DESK_SET_BYTES);
    for (int s = 0; s < SLOTS; s++)
        if (slots->has[s]) {
            put_slot(set, s);
            count++;
        }
    return count;
}

static struct found evaluate(const struct asked *asked, int count)
{
    struct slots variables[VARIABLES];
    for (int v = 0; v < VARIABLES; v++)
        variables[v] = all_slots(false);
    return value(asked, count - 1, variables);
}

static struct found list(const struct model *model, const struct node *table, int count)
{
    return evaluate(&(struct asked){model, table, false}, count);
}

/* The set alone, for a chain, which has no limit. */
static struct slots list_goal(const struct model *model, const struct node *table, int count)
{
    return evaluate(&(struct asked){model, table, true}, count).set;
}

/* ---- listing once more, by the definition of a round alone */

struct walk {
    const struct model *model;
    const struct node *table;
    struct slots variables[VARIABLES];
    uint32_t rounds;
    int steps; /* how many nodes may still be looked at */
};

static struct slots walk(struct walk *w, int number)
{
    const struct node *node = &w->table[number];
    const int used = children(node->kind);
    struct slots left = all_slots(node->kind == NU), right = left;
    if (w->steps-- <= 0)
        return left;
    if (is_loop(node)) {
        struct slots *variable = &w->variables[node->param], outer = *variable;
        do {
            *variable = left;
            left = walk(w, node->left);
            w->rounds++;
        } while (memcmp(&left, variable, sizeof left) != 0 && w->steps > 0);
        *variable = outer;
        return left;
    }
    if (used >= 1)
        left = walk(w, node->left);
    if (used == 2)
        right = walk(w, node->right);
    return node_value(w->model, node, &left, &right, w->variables);
}

/* ---- the chain: forward from the start */

enum { FAR = SLOTS }; /* steps to a slot that is not reached; fewer than these lead to any other */

/* How many steps lead to each slot from the start: a queue of the slots that are reached, each once. */
static void measure(const struct arcs *arcs, int way, int start, int *steps)
{
    int queue[SLOTS], count = 1;
    for (int s = 0; s < SLOTS; s++)
        steps[s] = FAR;
    queue[0] = start;
    steps[start] = 0;
    for (int next = 0; next < count; next++)
        for (size_t k = 0; k < arcs->count; k++) {
            struct arc a = along(way, arcs->at[k]);
            if (a.from == queue[next] && steps[a.to] == FAR) {
                steps[a.to] = steps[a.from] + 1;
                queue[count++] = a.to;
            }
        }
}

/* The slots of chains with so many steps whose end is in the goal: from such ends back, a step less each time. */
static struct slots mark_chains(const struct arcs *arcs, int way, const int *steps, int most, const struct slots *goal)
{
    struct slots on;
    for (int s = 0; s < SLOTS; s++)
        on.has[s] = goal->has[s] && steps[s] == most;
    for (int left = most - 1; left >= 0; left--)
        for (size_t k = 0; k < arcs->count; k++) {
            struct arc a = along(way, arcs->at[k]);
            if (steps[a.from] == left && steps[a.to] == left + 1 && on.has[a.to])
                on.has[a.from] = true;
        }
    return on;
}

/* From slot to slot on these chains, each time to the lowest. */
static void follow(const struct arcs *arcs, int way, const int *steps, const struct slots *on, int start, int most, uint8_t *chain)
{
    int slot = start;
    chain[0] = (uint8_t)start;
    for (int n = 1; n <= most; n++) {
        int lowest = SLOTS;
        for (size_t k = 0; k < arcs->count; k++) {
            struct arc a = along(way, arcs->at[k]);
            if (a.from == slot && steps[a.to] == n && on->has[a.to] && a.to < lowest)
                lowest = a.to;
        }
        chain[n] = (uint8_t)lowest;
        slot = lowest;
    }
}

/* Item 17. */
static bool start_fault(const struct model *model, uint32_t way, uint32_t start)
{
    return way >= EVERYWHERE || start >= SLOTS || !model->present[start];
}

/* ---- the chain once more, by trying all of them */

struct trying {
    const struct arcs *arcs;
    int way;
    const struct slots *goal;
    struct slots met;         /* every slot at which some chain was */
    uint8_t at[SLOTS];        /* the chain at hand */
    struct tried *best;
    int arcs_left;            /* how many arcs may still be looked at */
};

/* Keeps the chain at hand, of so many steps, if it is the first one or has the lower slot where it first differs. */
static void keep_lower(struct trying *t, int steps)
{
    if (t->best->ties++ == 0 || memcmp(t->at, t->best->chain, (size_t)steps + 1) < 0)
        memcpy(t->best->chain, t->at, (size_t)steps + 1);
}

/* All chains that go on from the slot for this many steps more; from the last arc to the first, so that the lowest chain does not come first. */
static void try_on(struct trying *t, int slot, int done, int more)
{
    t->at[done] = (uint8_t)slot;
    t->met.has[slot] = true;
    if (more == 0 && t->goal->has[slot])
        keep_lower(t, done);
    for (size_t k = t->arcs->count; more > 0 && k > 0 && t->arcs_left > 0; k--, t->arcs_left--) {
        struct arc a = along(t->way, t->arcs->at[k - 1]);
        if (a.from == slot)
            try_on(t, a.to, done + 1, more - 1);
    }
}

/* ---- the sheet */

const char *const operands[OPERATIONS] = {"Nn-", "Nnf", "np-", "np-", "mnn", "mnn", "fn-", "Nk-", "n--"};

static bool operand_fault(char kind, int value)
{
    switch (kind) {
    case 'n':
        return value >= NAMES;
    case 'N':
        return value < 1 || value >= NAMES;
    case 'p':
        return value >= LABELS;
    case 'm':
        return value >= LINKS;
    case 'f':
        return value < GENERAL || value >= LINKS;
    case '-':
        return value != 0;
    }
    return false;
}

/* Item 12 for one edit. */
static bool edit_fault(const uint8_t *edit)
{
    return edit[0] >= OPERATIONS || operand_fault(operands[edit[0]][0], edit[1]) || operand_fault(operands[edit[0]][1], edit[2]) ||
           operand_fault(operands[edit[0]][2], edit[3]);
}

static int find_arc(const struct arcs *arcs, int from, int to)
{
    for (size_t k = 0; k < arcs->count; k++)
        if (arcs->at[k].from == from && arcs->at[k].to == to)
            return (int)k;
    return -1;
}

static void drop_arc(struct arcs *arcs, int number)
{
    if (number >= 0)
        arcs->at[number] = arcs->at[--arcs->count];
}

int model_target(const struct model *model, int link, int from)
{
    const struct arcs *arcs = &model->link[link];
    for (size_t k = 0; k < arcs->count; k++)
        if (arcs->at[k].from == from)
            return arcs->at[k].to;
    return 0;
}

static void drop_link(struct model *model, int link, int from, int to)
{
    drop_arc(&model->link[link], find_arc(&model->link[link], from, to));
}

static void drop_slot(struct model *model, int slot)
{
    model->present[slot] = false;
    for (int p = 0; p < LABELS; p++)
        model->label[p][slot] = false;
    for (int n = 0; n < NAMES; n++)
        if (model->name[n] == slot)
            model->name[n] = 0;
    for (int m = 0; m < LINKS; m++) {
        struct arcs *arcs = &model->link[m];
        size_t kept = 0;
        for (size_t k = 0; k < arcs->count; k++)
            if (arcs->at[k].from != slot && arcs->at[k].to != slot)
                arcs->at[kept++] = arcs->at[k];
        arcs->count = kept;
    }
}

/* AT of edition 2 by a functional link: the slot takes a second target while the first is live, and drops the first. */
static bool replaces(const uint8_t *edit, uint32_t edition)
{
    return edit[0] == AT && edit[1] >= GENERAL && edition == 2;
}

/* AT. A functional link from a slot with another target either replaces it or does not go through. */
static bool add_link(struct model *model, const uint8_t *edit, uint32_t edition)
{
    const int link = edit[1], from = model->name[edit[2]], to = model->name[edit[3]];
    const int old = link < GENERAL ? 0 : model_target(model, link, from);
    if (from == 0 || to == 0)
        return false;
    if (old != 0 && old != to) {
        if (!replaces(edit, edition))
            return false;
        drop_link(model, link, from, old);
    }
    if (find_arc(&model->link[link], from, to) < 0)
        add_arc(&model->link[link], from, to);
    return true;
}

bool model_edit(struct model *model, const uint8_t *edit, uint32_t edition)
{
    const int x = edit[1], y = edit[2], z = edit[3];
    switch (edit[0]) {
    case CN1:
        model->name[x] = model->name[y];
        return true;
    case CN2:
        model->name[x] = (uint8_t)model_target(model, z, model->name[y]);
        return true;
    case AP: /* nil gets no label */
        model->label[y][model->name[x]] |= model->name[x] != DESK_NIL;
        return true;
    case DP:
        model->label[y][model->name[x]] = false;
        return true;
    case AT:
        return add_link(model, edit, edition);
    case DT1:
        drop_link(model, x, model->name[y], model->name[z]);
        return true;
    case DT2:
        drop_link(model, x, model->name[y], model_target(model, x, model->name[y]));
        return true;
    case AS:
        if (model->present[y])
            return false;
        model->present[y] = true;
        model->name[x] = (uint8_t)y;
        return true;
    default:
        if (model->name[x] == 0)
            return false;
        drop_slot(model, model->name[x]);
        return true;
    }
}

/* ---- rewriting: the specification's blocks, read word by word */

struct words {
    const char *text; /* NULL: the node is copied */
    int n, n1, n2, p, y, k, way, f;
};

/* AT of edition 2 over a functional link. */
static const char *replace_text(bool diamond, bool back)
{
    if (diamond)
        return back ? "n1 ! T & <f-> n2 n1 T & <E> & |" : "n1 ! T <f> & n1 n2 T & <E> & |";
    return back ? "n1 T | [f-] n2 ! n1 ! T | [E] | &" : "n1 T [f] | n1 ! n2 ! T | [E] | &";
}

static struct words link_words(const uint8_t *edit, uint32_t edition, const struct node *node)
{
    struct words w = {.way = node->param, .f = edit[1], .n = edit[2], .n1 = edit[2], .n2 = edit[3]};
    bool diamond = node->kind == DIAMOND, back = node->param >= LINKS;
    if (node->param % LINKS != edit[1])
        return w;
    if (replaces(edit, edition)) {
        w.text = replace_text(diamond, back);
        return w;
    }
    if (back) {
        w.n1 = edit[3];
        w.n2 = edit[2];
    }
    if (edit[0] == AT)
        w.text = diamond ? "T <m> n1 n2 T & <E> & |" : "T [m] n1 ! n2 ! T | [E] | &";
    else if (edit[0] == DT1)
        w.text = diamond ? "n1 ! T <m> & n2 ! T & <m> |" : "n1 T [m] | n2 T | [m] &";
    else if (back)
        w.text = diamond ? "n ! T & <f->" : "n T | [f-]";
    else
        w.text = diamond ? "n ! T <f> &" : "n T [f] |";
    return w;
}

static struct words delete_words(const uint8_t *edit, const struct node *node)
{
    struct words w = {.n = edit[1], .p = node->param, .y = node->param, .way = node->param};
    switch (node->kind) {
    case HERE:
        w.text = "h n ! &";
        break;
    case LABEL:
        w.text = "p n ! &";
        break;
    case NAME:
        w.text = node->param == 0 ? NULL : "y n ! & nil n y & <E> & |";
        break;
    case DIAMOND:
        w.text = "n ! n ! T & <m> &";
        break;
    case BOX:
        w.text = "n n T | [m] |";
        break;
    }
    return w;
}

static struct words block_words(const uint8_t *edit, uint32_t edition, const struct node *node)
{
    const int op = edit[0];
    const bool over = node->kind == DIAMOND || node->kind == BOX;
    if (over && node->param == EVERYWHERE)
        return (struct words){.text = NULL};
    if (over && (op == AT || op == DT1 || op == DT2))
        return link_words(edit, edition, node);
    if (op == DS)
        return delete_words(edit, node);
    if (op == CN1 && node->kind == NAME && node->param == edit[1])
        return (struct words){.text = "n2", .n2 = edit[2]};
    if (op == CN2 && node->kind == NAME && node->param == edit[1])
        return (struct words){.text = "n2 <f-> nil n2 t <f> & <E> ! & |", .n2 = edit[2], .f = edit[3]};
    if ((op == AP || op == DP) && node->kind == LABEL && node->param == edit[2])
        return (struct words){.text = op == AP ? "p n nil ! & |" : "p n ! &", .n = edit[1], .p = edit[2]};
    if (op == AS && node->kind == NAME && node->param == edit[1])
        return (struct words){.text = "k", .k = edit[2]};
    if (op == AS && node->kind == HERE)
        return (struct words){.text = "h k |", .k = edit[2]};
    return (struct words){.text = NULL};
}

static bool is(const char *word, const char *other)
{
    return strcmp(word, other) == 0;
}

static int way_of(const struct words *w, const char *inside)
{
    return inside[0] == 'E' ? EVERYWHERE : inside[0] == 'm' ? w->way : inside[1] == '-' ? w->f + LINKS : w->f;
}

static struct node leaf(const struct words *w, const char *word)
{
    if (is(word, "t"))
        return (struct node){TRUE, 0, 0, 0};
    if (is(word, "h"))
        return (struct node){HERE, 0, 0, 0};
    if (is(word, "p"))
        return (struct node){LABEL, w->p, 0, 0};
    if (is(word, "k"))
        return (struct node){SLOT, w->k, 0, 0};
    if (is(word, "nil"))
        return (struct node){NAME, 0, 0, 0};
    return (struct node){NAME, is(word, "n1") ? w->n1 : is(word, "n2") ? w->n2 : is(word, "y") ? w->y : w->n, 0, 0};
}

/* Reads the text as a stack machine does, adds its nodes to the table, and gives the block's last node. */
static int put_words(const struct words *w, int image, struct node *table, int *count)
{
    enum { DEEPEST = 8 };
    int stack[DEEPEST], depth = 0;
    char text[80];
    strcpy(text, w->text);
    for (char *word = strtok(text, " "); word; word = strtok(NULL, " ")) {
        struct node node = {0, 0, 0, 0};
        if (is(word, "T")) {
            stack[depth++] = image;
            continue;
        }
        if (is(word, "&") || is(word, "|")) {
            node.kind = word[0] == '&' ? AND : OR;
            node.right = stack[--depth];
            node.left = stack[--depth];
        } else if (is(word, "!")) {
            node.kind = NOT;
            node.left = stack[--depth];
        } else if (word[0] == '<' || word[0] == '[') {
            node.kind = word[0] == '<' ? DIAMOND : BOX;
            node.param = way_of(w, word + 1);
            node.left = stack[--depth];
        } else {
            node = leaf(w, word);
        }
        stack[depth++] = *count;
        table[(*count)++] = node;
    }
    return stack[0];
}

/* One edit: each old node becomes its block. The table has room for the longest blocks. */
static int rewrite_edit(const uint8_t *edit, uint32_t edition, const struct node *old, int old_count, struct node *table)
{
    static int images[DESK_NODES_MAX];
    int count = 0;
    for (int i = 0; i < old_count; i++) {
        struct words w = block_words(edit, edition, &old[i]);
        if (w.text) {
            images[i] = put_words(&w, images[old[i].left], table, &count);
            continue;
        }
        table[count] = old[i];
        if (children(old[i].kind) >= 1)
            table[count].left = images[old[i].left];
        if (children(old[i].kind) == 2)
            table[count].right = images[old[i].right];
        images[i] = count++;
    }
    return count;
}

/* What has to hold on a site for the edit to go through there, in the words of the specification; no text: it always does. */
static struct words own_words(const uint8_t *edit, uint32_t edition)
{
    const bool any_target = edit[1] < GENERAL || replaces(edit, edition);
    switch (edit[0]) {
    case AT:
        return (struct words){.text = any_target ? "n1 nil & <E> ! n2 nil & <E> ! &"
                                                 : "n1 nil & <E> ! n2 nil & <E> ! & n1 t <m> & <E> ! n1 n2 <m> & <E> | &",
                              .way = edit[1], .n1 = edit[2], .n2 = edit[3]};
    case AS:
        return (struct words){.text = "h k & <E> !", .k = edit[2]};
    case DS:
        return (struct words){.text = "n nil & <E> !", .n = edit[1]};
    }
    return (struct words){.text = NULL};
}

/* The edit's own condition and an "and" behind the table, which is the left operand. */
static int put_own(const uint8_t *edit, uint32_t edition, struct node *table, int count)
{
    struct words w = own_words(edit, edition);
    if (!w.text)
        return count;
    int older = count - 1, own = put_words(&w, older, table, &count);
    table[count] = (struct node){AND, 0, older, own};
    return count + 1;
}

/* The passes over a sheet, its last edit first, which oracle_rewrite and oracle_through share; for the latter each edit's own condition comes
 * behind the table that was rewritten through the edit. 0 where a table is too long. */
static int rewrite(struct node *table, int count, const uint8_t *sheet, size_t edits, uint32_t edition, bool with_own)
{
    enum { LONGEST_BLOCK = 11, LONGEST_OWN = 25 };
    static struct node longer[DESK_NODES_MAX * LONGEST_BLOCK + LONGEST_OWN];
    for (size_t k = edits; k-- > 0;) {
        const uint8_t *edit = sheet + DESK_EDIT_BYTES * k;
        count = rewrite_edit(edit, edition, table, count, longer);
        if (with_own)
            count = put_own(edit, edition, longer, count);
        if (count > DESK_NODES_MAX)
            return 0;
        memcpy(table, longer, sizeof *table * (size_t)count);
    }
    return count;
}

/* ---- classes */

struct neighbours {
    int count[EVERYWHERE][SLOTS];
    uint8_t *at[EVERYWHERE][SLOTS];
    uint8_t pool[EVERYWHERE * SLOTS * SLOTS];
};

static void gather(const struct model *model, struct neighbours *near)
{
    uint8_t *free_at = near->pool;
    memset(near->count, 0, sizeof near->count);
    for (int way = 0; way < EVERYWHERE; way++) {
        const struct arcs *arcs = &model->link[way % LINKS];
        for (size_t k = 0; k < arcs->count; k++)
            near->count[way][along(way, arcs->at[k]).from]++;
        for (int s = 0; s < SLOTS; s++) {
            near->at[way][s] = free_at;
            free_at += near->count[way][s];
            near->count[way][s] = 0;
        }
        for (size_t k = 0; k < arcs->count; k++) {
            struct arc a = along(way, arcs->at[k]);
            near->at[way][a.from][near->count[way][a.from]++] = a.to;
        }
    }
}

/* Here, the labels and the names of a slot, a bit each. */
struct colour {
    uint64_t here, labels, names;
};

_Static_assert(LABELS <= 64 && NAMES <= 64, "a colour has a bit for each");

static struct colour colour(const struct model *model, int slot)
{
    struct colour c = {model->present[slot], 0, 0};
    for (int p = 0; p < LABELS; p++)
        c.labels = c.labels << 1 | model->label[p][slot];
    for (int n = 0; n < NAMES; n++)
        c.names = c.names << 1 | (model->name[n] == slot);
    return c;
}

/* Each neighbour of one is related to some neighbour of the other. */
static bool answers(bool (*related)[SLOTS], const struct neighbours *near, int way, int one, int other)
{
    for (int k = 0; k < near->count[way][one]; k++) {
        bool found = false;
        for (int l = 0; l < near->count[way][other] && !found; l++)
            found = related[near->at[way][one][k]][near->at[way][other][l]];
        if (!found)
            return false;
    }
    return true;
}

static bool alike(bool (*related)[SLOTS], const struct neighbours *near, int one, int other)
{
    for (int way = 0; way < EVERYWHERE; way++)
        if (!answers(related, near, way, one, other) || !answers(related, near, way, other, one))
            return false;
    return true;
}

/* Starts from agreement of colours and takes out pairs that are not alike until none is left. Slots without links stay as they are. */
static void relate(const struct model *model, bool (*related)[SLOTS])
{
    static struct neighbours near;
    struct colour colours[SLOTS];
    int linked[SLOTS], count = 0;
    gather(model, &near);
    for (int s = 0; s < SLOTS; s++) {
        bool any = false;
        colours[s] = colour(model, s);
        for (int way = 0; way < EVERYWHERE; way++)
            any |= near.count[way][s] != 0;
        if (any)
            linked[count++] = s;
    }
    for (int s = 0; s < SLOTS; s++)
        for (int t = 0; t < SLOTS; t++)
            related[s][t] = memcmp(&colours[s], &colours[t], sizeof colours[s]) == 0;
    for (int i = 0; i < count; i++)
        for (int t = 0; t < SLOTS; t++)
            if (related[linked[i]][t] && !alike(related, &near, linked[i], t))
                related[linked[i]][t] = related[t][linked[i]] = false;
    for (bool moved = true; moved;) {
        moved = false;
        for (int i = 0; i < count; i++)
            for (int j = 0; j < i; j++) {
                int s = linked[i], t = linked[j];
                if (related[s][t] && !alike(related, &near, s, t)) {
                    related[s][t] = related[t][s] = false;
                    moved = true;
                }
            }
    }
}

static uint32_t number_classes(const struct model *model, uint8_t *classes)
{
    static bool related[SLOTS][SLOTS];
    bool used[SLOTS] = {false};
    uint32_t different = 0;
    relate(model, related);
    for (int s = 0; s < SLOTS; s++) {
        int lowest = 0;
        while (!related[s][lowest])
            lowest++;
        classes[s] = (uint8_t)lowest;
        different += !used[lowest];
        used[lowest] = true;
    }
    return different;
}

/* ---- the entry points */

struct piece {
    const uint8_t *at; /* NULL: the entry point has no such input */
    size_t length;
};

/* The inputs of an entry point, read: the site, the site after, the table and the rewritten table. */
struct read {
    uint32_t reason, where;
    struct model before, after;
    struct node table[DESK_NODES_MAX], rewritten[DESK_NODES_MAX];
    int count, rewritten_count;
};

static void judge_sheet(struct read *r, struct piece sheet)
{
    if (sheet.length % DESK_EDIT_BYTES != 0 || sheet.length > SHEET_BYTES) {
        r->reason = 11;
        return;
    }
    for (size_t k = 0; k < sheet.length / DESK_EDIT_BYTES; k++)
        if (edit_fault(sheet.at + DESK_EDIT_BYTES * k)) {
            r->reason = 12;
            r->where = (uint32_t)k;
            return;
        }
}

static void model_copy(struct model *to, const struct model *from)
{
    memcpy(to, from, offsetof(struct model, link));
    for (int m = 0; m < LINKS; m++) {
        to->link[m].count = from->link[m].count;
        memcpy(to->link[m].at, from->link[m].at, sizeof(struct arc) * from->link[m].count);
    }
}

static void apply(struct read *r, struct piece sheet, uint32_t edition)
{
    model_copy(&r->after, &r->before);
    for (size_t k = 0; k < sheet.length / DESK_EDIT_BYTES; k++)
        if (!model_edit(&r->after, sheet.at + DESK_EDIT_BYTES * k, edition)) {
            r->reason = 13;
            r->where = (uint32_t)k;
            return;
        }
}

/* Items 18 and 3 to 14, those that concern the pieces given; an edition goes with a sheet. */
static void judge(struct read *r, struct piece site, struct piece cond, struct piece sheet, uint32_t edition)
{
    r->where = 0;
    r->reason = sheet.at && edition != 1 && edition != 2 ? 18 : site.at && site.length != DESK_SITE_BYTES ? 3 : 0;
    if (r->reason)
        return;
    if (site.at) {
        model_read(&r->before, site.at);
        r->reason = site_fault(&r->before);
    }
    if (!r->reason && cond.at) {
        if (cond.length % DESK_NODE_BYTES != 0 || cond.length == 0 || cond.length > DESK_TABLE_BYTES) {
            r->reason = 7;
            return;
        }
        r->count = (int)(cond.length / DESK_NODE_BYTES);
        table_read(r->table, cond.at, cond.length / DESK_NODE_BYTES);
        r->reason = condition_fault(r->table, r->count, &r->where);
    }
    if (!r->reason && sheet.at)
        judge_sheet(r, sheet);
    if (!r->reason && sheet.at && site.at)
        apply(r, sheet, edition);
    if (!r->reason && sheet.at && cond.at) {
        memcpy(r->rewritten, r->table, sizeof r->table);
        r->rewritten_count = rewrite(r->rewritten, r->count, sheet.at, sheet.length / DESK_EDIT_BYTES, edition, false);
        if (r->rewritten_count == 0)
            r->reason = 14;
    }
}

static struct read answer;
static const struct piece none;

struct desk_listed oracle_list(const uint8_t *site, size_t site_len, const uint8_t *cond, size_t cond_len, uint32_t limit,
                               uint8_t *set, size_t set_len, uint8_t *work, size_t work_len)
{
    struct read *r = &answer;
    memset(set, 0, set_len);
    memset(work, 0, work_len);
    if (set_len != DESK_SET_BYTES || work_len != DESK_WORK_BYTES)
        return (struct desk_listed){1, 0, 0, 0};
    if (limit > DESK_LIMIT_MAX)
        return (struct desk_listed){16, 0, 0, 0};
    judge(r, (struct piece){site, site_len}, (struct piece){cond, cond_len}, none, 0);
    if (r->reason)
        return (struct desk_listed){r->reason, r->where, 0, 0};
    struct found found = list(&r->before, r->table, r->count);
    if (found.rounds > limit)
        return (struct desk_listed){15, 0, 0, 0};
    return (struct desk_listed){0, 0, set_write(&found.set, set), found.rounds};
}

bool oracle_walk(const uint8_t *site, const uint8_t *cond, size_t cond_len, uint8_t *set, uint32_t *rounds)
{
    enum { STEPS = 800, DEEPEST = 100 };
    struct read *r = &answer;
    judge(r, (struct piece){site, DESK_SITE_BYTES}, (struct piece){cond, cond_len}, none, 0);
    struct walk w = {.model = &r->before, .table = r->table, .steps = STEPS};
    if (r->reason || r->count > DEEPEST)
        return false;
    struct slots slots = walk(&w, r->count - 1);
    set_write(&slots, set);
    *rounds = w.rounds;
    return w.steps > 0;
}

struct desk_applied oracle_apply(const uint8_t *site, size_t site_len, const uint8_t *sheet, size_t sheet_len, uint32_t edition,
                                 uint8_t *result, size_t result_len)
{
    struct read *r = &answer;
    memset(result, 0, result_len);
    if (result_len != DESK_SITE_BYTES)
        return (struct desk_applied){1, 0};
    judge(r, (struct piece){site, site_len}, none, (struct piece){sheet, sheet_len}, edition);
    if (!r->reason)
        model_write(&r->after, result);
    return (struct desk_applied){r->reason, r->where};
}

struct desk_rewritten oracle_rewrite(const uint8_t *cond, size_t cond_len, const uint8_t *sheet, size_t sheet_len, uint32_t edition,
                                     uint8_t *result, size_t result_len)
{
    struct read *r = &answer;
    memset(result, 0, result_len);
    if (result_len != DESK_TABLE_BYTES)
        return (struct desk_rewritten){1, 0, 0};
    judge(r, none, (struct piece){cond, cond_len}, (struct piece){sheet, sheet_len}, edition);
    if (!r->reason)
        table_write(r->rewritten, (size_t)r->rewritten_count, result);
    return (struct desk_rewritten){r->reason, r->where, r->reason ? 0 : (uint32_t)r->rewritten_count};
}

struct desk_rewritten oracle_through(const uint8_t *sheet, size_t sheet_len, uint32_t edition, uint8_t *result, size_t result_len)
{
    struct read *r = &answer;
    memset(result, 0, result_len);
    if (result_len != DESK_TABLE_BYTES)
        return (struct desk_rewritten){1, 0, 0};
    judge(r, none, none, (struct piece){sheet, sheet_len}, edition);
    if (r->reason)
        return (struct desk_rewritten){r->reason, r->where, 0};
    r->rewritten[0] = (struct node){TRUE, 0, 0, 0};
    r->rewritten_count = rewrite(r->rewritten, 1, sheet, sheet_len / DESK_EDIT_BYTES, edition, true);
    if (r->rewritten_count == 0)
        return (struct desk_rewritten){14, 0, 0};
    table_write(r->rewritten, (size_t)r->rewritten_count, result);
    return (struct desk_rewritten){0, 0, (uint32_t)r->rewritten_count};
}

struct desk_classed oracle_classes(const uint8_t *site, size_t site_len, uint8_t *classes, size_t classes_len)
{
    struct read *r = &answer;
    memset(classes, 0, classes_len);
    if (classes_len != DESK_CLASSES_BYTES)
        return (struct desk_classed){1, 0, 0};
    judge(r, (struct piece){site, site_len}, none, none, 0);
    return (struct desk_classed){r->reason, r->where, r->reason ? 0 : number_classes(&r->before, classes)};
}

/* The goal is listed to the end, whatever rounds that takes: neither 15 nor 16 is met. */
struct desk_chained oracle_chain(const uint8_t *site, size_t site_len, const uint8_t *cond, size_t cond_len, uint32_t way, uint32_t start,
                                 uint8_t *chain, size_t chain_len, uint8_t *set, size_t set_len, uint8_t *work, size_t work_len)
{
    struct read *r = &answer;
    struct slots reached;
    int steps[SLOTS], fewest = FAR;
    memset(chain, 0, chain_len);
    memset(set, 0, set_len);
    memset(work, 0, work_len);
    if (chain_len != DESK_CHAIN_BYTES || set_len != DESK_SET_BYTES || work_len != DESK_WORK_BYTES)
        return (struct desk_chained){1, 0, 0, 0};
    judge(r, (struct piece){site, site_len}, (struct piece){cond, cond_len}, none, 0);
    if (r->reason || start_fault(&r->before, way, start))
        return (struct desk_chained){r->reason ? r->reason : 17, r->where, 0, 0};
    const struct arcs *arcs = &r->before.link[way % LINKS];
    const struct slots goal = list_goal(&r->before, r->table, r->count);
    measure(arcs, (int)way, (int)start, steps);
    for (int s = 0; s < SLOTS; s++) {
        reached.has[s] = steps[s] != FAR;
        if (goal.has[s] && steps[s] < fewest)
            fewest = steps[s];
    }
    if (fewest == FAR) {
        set_write(&reached, set);
        return (struct desk_chained){0, 0, 0, 0};
    }
    const struct slots on = mark_chains(arcs, (int)way, steps, fewest, &goal);
    follow(arcs, (int)way, steps, &on, (int)start, fewest, chain);
    return (struct desk_chained){0, 0, 1, (uint32_t)fewest};
}

/* A chain of fewest steps has no slot twice, so that it has fewer steps than there are present slots. */
bool oracle_try_chains(const uint8_t *site, const uint8_t *cond, size_t cond_len, uint32_t way, uint32_t start, struct tried *tried)
{
    enum { ARCS_MOST = 20000 };
    struct read *r = &answer;
    int present = 0;
    memset(tried, 0, sizeof *tried);
    judge(r, (struct piece){site, DESK_SITE_BYTES}, (struct piece){cond, cond_len}, none, 0);
    if (r->reason || start_fault(&r->before, way, start))
        return false;
    const struct slots goal = list_goal(&r->before, r->table, r->count);
    struct trying t = {&r->before.link[way % LINKS], (int)way, &goal, all_slots(false), {0}, tried, ARCS_MOST};
    for (int s = 0; s < SLOTS; s++)
        present += r->before.present[s];
    for (int steps = 0; steps < present && tried->ties == 0; steps++) {
        try_on(&t, (int)start, 0, steps);
        tried->steps = (uint32_t)steps;
    }
    tried->found = tried->ties > 0;
    if (!tried->found) {
        tried->steps = 0;
        set_write(&t.met, tried->set);
    }
    return t.arcs_left > 0;
}

static uint32_t number(const uint8_t *at)
{
    return (uint32_t)(at[0] + 256ull * at[1] + 65536ull * at[2] + 16777216ull * at[3]);
}

/* Items 2, 18 and 3 to 14. */
static void judge_file(struct read *r, const uint8_t *file, size_t length)
{
    enum { TRAILER = 16 };
    r->reason = 2;
    r->where = 0;
    if (length < TRAILER || length > DESK_FILE_BYTES_MAX)
        return;
    const uint8_t *trailer = file + length - TRAILER;
    const uint32_t to_sheet = number(trailer), to_cond = number(trailer + 4), to_site = number(trailer + 8), edition = number(trailer + 12);
    if (to_cond < to_sheet || to_site < to_cond || to_site != length - TRAILER)
        return;
    judge(r, (struct piece){file, to_site - to_cond}, (struct piece){trailer - to_cond, to_cond - to_sheet},
          (struct piece){trailer - to_sheet, to_sheet}, edition);
}

bool oracle_rounds(const uint8_t *file, size_t file_len, uint32_t *after, uint32_t *today)
{
    struct read *r = &answer;
    judge_file(r, file, file_len);
    if (r->reason)
        return false;
    *after = list(&r->after, r->table, r->count).rounds;
    *today = list(&r->before, r->rewritten, r->rewritten_count).rounds;
    return true;
}

struct desk_done oracle_job(const uint8_t *file, size_t file_len, uint32_t limit, uint8_t *site, size_t site_len,
                            uint8_t *table, size_t table_len, uint8_t *after, size_t after_len, uint8_t *today, size_t today_len,
                            uint8_t *classes, size_t classes_len, uint8_t *work, size_t work_len)
{
    struct read *r = &answer;
    memset(site, 0, site_len);
    memset(table, 0, table_len);
    memset(after, 0, after_len);
    memset(today, 0, today_len);
    memset(classes, 0, classes_len);
    memset(work, 0, work_len);
    if (site_len != DESK_SITE_BYTES || table_len != DESK_TABLE_BYTES || after_len != DESK_SET_BYTES || today_len != DESK_SET_BYTES ||
        classes_len != DESK_CLASSES_BYTES || work_len != DESK_WORK_BYTES)
        return (struct desk_done){.reason = 1};
    if (limit > DESK_LIMIT_MAX)
        return (struct desk_done){.reason = 16};
    judge_file(r, file, file_len);
    if (r->reason)
        return (struct desk_done){.reason = r->reason, .where = r->where};
    struct found one = list(&r->after, r->table, r->count), other = list(&r->before, r->rewritten, r->rewritten_count);
    if (one.rounds > limit || other.rounds > limit)
        return (struct desk_done){.reason = 15};
    model_write(&r->after, site);
    table_write(r->rewritten, (size_t)r->rewritten_count, table);
    return (struct desk_done){.after = set_write(&one.set, after),
                              .today = set_write(&other.set, today),
                              .nodes = (uint32_t)r->rewritten_count,
                              .classes = number_classes(&r->after, classes),
                              .after_rounds = one.rounds,
                              .today_rounds = other.rounds};
}
