/* Random sites, conditions and sheets that fit each other for the most part, and damage to them. */
#include "random_jobs.h"

#include <string.h>

/* ---- random numbers */

static uint64_t state;

static uint64_t random_64(void)
{
    uint64_t x = state += 0x9e3779b97f4a7c15u;
    x = (x ^ x >> 30) * 0xbf58476d1ce4e5b9u;
    x = (x ^ x >> 27) * 0x94d049bb133111ebu;
    return x ^ x >> 31;
}

int below(int limit)
{
    return (int)(random_64() % (uint64_t)limit);
}

bool one_in(int n)
{
    return below(n) == 0;
}

static int between(int low, int high)
{
    return low + below(high - low + 1);
}

/* ---- the job at hand */

struct bytes site, cond, sheet, file;
uint32_t edition = DESK_EDITION_1;

const uint32_t unknown_editions[UNKNOWN_EDITIONS] = {
    0, 3, 255, 256, 256 + 1, 256 + 2, 65536 + 1, (1u << 24) + 1, (1u << 24) + 2, 1u << 31, UINT32_MAX - 1, UINT32_MAX,
};

static struct model model; /* the site, as the edits made so far leave it */

void append(struct bytes *to, const uint8_t *from, size_t length)
{
    memcpy(to->at + to->length, from, length);
    to->length += length;
}

static int node_count(void)
{
    return (int)(cond.length / DESK_NODE_BYTES);
}

/* One of the first names or of the last for the most part, so that the names of a job meet. */
static int some_name(void)
{
    return one_in(3) ? below(NAMES) : one_in(2) ? below(5) : NAMES - 1 - below(4);
}

static int some_moved_name(void)
{
    const int name = some_name();
    return name == 0 ? between(1, NAMES - 1) : name;
}

/* ---- random sites */

struct shape {
    int count, slots[SLOTS]; /* the present slots but 0 */
    int links, labels;       /* how many of each are used */
    int arcs;                /* arcs of each link in use */
};

static struct shape random_shape(void)
{
    struct shape shape = {.links = between(1, LINKS), .labels = between(0, 4)};
    int most = one_in(40) ? SLOTS - 1 : one_in(4) ? 40 : 6, taken[SLOTS], count = between(0, most);
    bool low = !one_in(3);
    for (int s = 1; s < SLOTS; s++)
        taken[s - 1] = s;
    for (int k = 0; k < count; k++) {
        int other = low ? k : between(k, SLOTS - 2), s = taken[other];
        taken[other] = taken[k];
        shape.slots[k] = s;
    }
    shape.count = count;
    shape.arcs = one_in(3) ? count * count / 2 : between(0, 2 * count);
    if (count > 60 && shape.arcs > 600 && !one_in(8))
        shape.arcs = 600;
    return shape;
}

static int random_slot(const struct shape *shape)
{
    return shape->count == 0 ? 0 : shape->slots[below(shape->count)];
}

static void random_arcs(const struct shape *shape)
{
    int m = below(LINKS);
    for (int k = 0; k < shape->arcs; k++) {
        int from = random_slot(shape), to = random_slot(shape);
        if (m < GENERAL)
            put_slot(site.at + row_at(m, from), to);
        else
            site.at[target_at(m, from)] = (uint8_t)to;
    }
}

/* Each slot has a target by a functional link. */
static void random_targets(const struct shape *shape)
{
    const int link = between(GENERAL, LINKS - 1);
    for (int k = 0; k < shape->count; k++)
        site.at[target_at(link, shape->slots[k])] = (uint8_t)random_slot(shape);
}

/* Few names, some or all of them. Some share a place, and some are at nil. */
static void random_names(const struct shape *shape)
{
    const int often = one_in(3) ? 8 : 1, rare = one_in(4) ? 1 : one_in(3) ? 4 : 40, shared = random_slot(shape);
    for (int n = 1; n < NAMES; n++)
        if (one_in(n < 5 || n >= NAMES - 4 ? often : rare))
            site.at[NAMES_AT + n] = (uint8_t)(one_in(8) ? 0 : one_in(4) ? shared : random_slot(shape));
}

static void random_site(void)
{
    struct shape shape = random_shape();
    site.length = DESK_SITE_BYTES;
    memset(site.at, 0, site.length);
    put_slot(site.at, 0);
    for (int k = 0; k < shape.count; k++)
        put_slot(site.at, shape.slots[k]);
    for (int l = 0; l < shape.labels; l++) {
        uint8_t *label = site.at + label_at(one_in(4) ? below(LABELS) : l);
        for (int k = between(0, shape.count); k > 0; k--)
            put_slot(label, random_slot(&shape));
    }
    random_names(&shape);
    for (int l = 0; l < shape.links && shape.count > 0; l++)
        random_arcs(&shape);
    if (one_in(3))
        random_targets(&shape);
}

/* ---- random conditions */

enum { NODES_MOST = 60 };

/* The free variables of each node, under an even and under an odd number of nots. */
struct variables {
    unsigned even, odd;
};

static struct variables variables[DESK_NODES_MAX];

static struct variables free_variables(int kind, int param, struct variables l, struct variables r)
{
    switch (kind) {
    case VARIABLE:
        return (struct variables){1u << param, 0};
    case NOT:
        return (struct variables){l.odd, l.even};
    case OR:
    case AND:
        return (struct variables){l.even | r.even, l.odd | r.odd};
    case DIAMOND:
    case BOX:
        return l;
    case MU:
    case NU:
        return (struct variables){l.even & ~(1u << param), l.odd & ~(1u << param)};
    }
    return (struct variables){0, 0};
}

void add_node(int kind, int param, int left, int right)
{
    const uint8_t node[DESK_NODE_BYTES] = {(uint8_t)kind, (uint8_t)param, (uint8_t)left, (uint8_t)(left >> 8),
                                           (uint8_t)right, (uint8_t)(right >> 8)};
    if (node_count() < DESK_NODES_MAX)
        variables[node_count()] = free_variables(kind, param, variables[left], variables[right]);
    append(&cond, node, sizeof node);
}

static int recent(int count)
{
    return one_in(3) ? below(count) : count - 1 - below(count < 3 ? count : 3);
}

static void add_leaf(void)
{
    switch (below(8)) {
    case 0:
        add_node(one_in(2) ? HERE : TRUE, 0, 0, 0);
        break;
    case 1:
    case 2:
        add_node(LABEL, one_in(4) ? below(LABELS) : below(3), 0, 0);
        break;
    case 3:
    case 4:
        add_node(NAME, some_name(), 0, 0);
        break;
    case 5:
        add_node(SLOT, one_in(2) ? below(SLOTS) : below(6), 0, 0);
        break;
    default:
        add_node(VARIABLE, one_in(6) ? below(VARIABLES) : below(2), 0, 0);
    }
}

/* A link from this one on, which the site has for the most part. */
static int some_link(int first)
{
    int link = between(first, LINKS - 1);
    for (int tries = 0; tries < 6 && model.link[link].count == 0; tries++)
        link = between(first, LINKS - 1);
    return link;
}

static int some_way(void)
{
    const int link = some_link(0);
    return one_in(8) ? EVERYWHERE : one_in(3) ? link + LINKS : link;
}

static void add_inner(int count, int *loops)
{
    int left = recent(count), choice = below(10);
    if (choice < 4) {
        add_node(one_in(2) ? DIAMOND : BOX, some_way(), left, 0);
    } else if (choice < 7) {
        add_node(one_in(2) ? OR : AND, 0, left, recent(count));
    } else if (choice < 8 && (one_in(8) || (variables[left].even | variables[left].odd) == 0)) {
        add_node(NOT, 0, left, 0);
    } else if (choice < 9 && *loops > 0) {
        int v = one_in(6) ? below(VARIABLES) : below(2);
        if (one_in(30) || !(variables[left].odd >> v & 1)) {
            add_node(one_in(2) ? MU : NU, v, left, 0);
            --*loops;
        }
    } else {
        add_leaf();
    }
}

/* Loops in loops, each variable under a way: (leaf and way 0) or (way 1) or .., closed from the last variable to the first. */
static void random_nest(void)
{
    int depth = one_in(5) ? 3 : 2, last = 0;
    cond.length = 0;
    for (int v = 0; v < depth; v++) {
        int before = last;
        add_leaf();
        int leaf = node_count() - 1;
        if (variables[leaf].even == 0 && one_in(3))
            add_node(NOT, 0, leaf++, 0);
        add_node(VARIABLE, v, 0, 0);
        add_node(one_in(3) ? BOX : DIAMOND, some_way(), leaf + 1, 0);
        add_node(one_in(2) ? OR : AND, 0, leaf, leaf + 2);
        last = leaf + 3;
        if (v > 0)
            add_node(one_in(3) ? AND : OR, 0, before, last++);
    }
    for (int v = depth - 1; v >= 0; v--) {
        add_node(one_in(2) ? MU : NU, v, last++, 0);
        if (one_in(4))
            add_node(one_in(2) ? DIAMOND : BOX, some_way(), last++, 0);
    }
}

static void random_table(void)
{
    int wanted = one_in(6) ? between(1, NODES_MOST) : between(1, 14), loops = between(0, 3);
    cond.length = 0;
    add_leaf();
    for (int tries = 0; tries < 200 && node_count() < wanted; tries++)
        if (one_in(4))
            add_leaf();
        else
            add_inner(node_count(), &loops);
}

static void random_condition(void)
{
    if (one_in(4))
        random_nest();
    else
        random_table();
    if (one_in(3)) /* a link by which an edit may re-home a slot */
        add_node(one_in(2) ? DIAMOND : BOX, some_link(GENERAL) + (one_in(2) ? LINKS : 0), node_count() - 1, 0);
    for (int v = 0; v < VARIABLES && !one_in(60); v++) {
        int last = node_count() - 1;
        if (variables[last].odd >> v & 1 && !(variables[last].even >> v & 1))
            add_node(NOT, 0, last++, 0);
        if (variables[last].even >> v & 1)
            add_node(one_in(2) ? MU : NU, v, last, 0);
    }
}

/* ---- random sheets */

static void random_edit(uint8_t *edit, int operation)
{
    const int link = one_in(2) ? below(LINKS) : one_in(2) ? GENERAL : 0, functional = between(GENERAL, LINKS - 1);
    const int label = one_in(3) ? below(LABELS) : below(3);
    const int forms[OPERATIONS][3] = {
        {some_moved_name(), some_name(), 0}, {some_moved_name(), some_name(), functional}, {some_name(), label, 0},
        {some_name(), label, 0},             {link, some_name(), some_name()},             {link, some_name(), some_name()},
        {functional, some_name(), 0},        {some_moved_name(), below(SLOTS), 0},         {some_name(), 0, 0},
    };
    edit[0] = (uint8_t)operation;
    for (int k = 0; k < 3; k++)
        edit[k + 1] = (uint8_t)forms[edit[0]][k];
}

/* A name that is at the slot, or name 0. */
static int some_name_at(int slot)
{
    const int first = below(NAMES);
    for (int k = 0; k < NAMES; k++)
        if (model.name[(first + k) % NAMES] == slot)
            return (first + k) % NAMES;
    return 0;
}

/* A functional link over which the condition looks, if one is found soon. */
static int some_seen_link(void)
{
    for (int tries = 0; tries < 12; tries++) {
        const uint8_t *node = cond.at + DESK_NODE_BYTES * below(node_count());
        if ((node[0] == DIAMOND || node[0] == BOX) && node[1] != EVERYWHERE && node[1] % LINKS >= GENERAL)
            return node[1] % LINKS;
    }
    return some_link(GENERAL);
}

/* AT from a slot that has a target by a functional link, if the site has such a link: it re-homes the slot for the most part, also to itself; or the
 * target is the same. */
static void random_rehoming(uint8_t *edit)
{
    const int link = one_in(4) ? some_link(GENERAL) : some_seen_link();
    const struct arcs *arcs = &model.link[link];
    random_edit(edit, AT);
    if (arcs->count == 0)
        return;
    const struct arc a = arcs->at[below((int)arcs->count)];
    const int from = some_name_at(a.from), to = one_in(6) ? from : one_in(6) ? some_name_at(a.to) : some_name();
    edit[1] = (uint8_t)link;
    edit[2] = (uint8_t)from;
    edit[3] = (uint8_t)to;
}

/* Edits that go through, for the most part. Some sheets have more of those that may not, some have more that do not, and some re-home many slots.
 * Some of edition 1 were meant for edition 2. */
static void random_sheet(void)
{
    static const int asking[] = {AT, AT, AT, AS, DS, CN1};
    const bool asks = one_in(4), rehomes = one_in(2);
    const uint32_t meant = one_in(4) ? DESK_EDITION_2 : edition;
    const int stray = one_in(8) ? 5 : 100;
    int wanted = one_in(30) ? between(7, DESK_EDITS_MAX) : one_in(3) ? between(0, 6) : between(0, 3);
    uint8_t edit[DESK_EDIT_BYTES];
    sheet.length = 0;
    for (int tries = 0; tries < 20 * wanted && (int)sheet.length / DESK_EDIT_BYTES < wanted; tries++) {
        if (rehomes && !one_in(3))
            random_rehoming(edit);
        else
            random_edit(edit, asks && !one_in(4) ? asking[below(sizeof asking / sizeof *asking)] : below(OPERATIONS));
        if (model_edit(&model, edit, meant) || one_in(stray))
            append(&sheet, edit, sizeof edit);
    }
}

/* ---- damage to a piece */

static void damage_length(struct bytes *piece, int unit)
{
    int change = one_in(2) ? unit * between(-2, 2) : between(-5, 5);
    if (one_in(8))
        piece->length = 0;
    else if ((int)piece->length + change >= 0)
        piece->length = (size_t)((int)piece->length + change);
    if (one_in(10) && piece == &cond)
        piece->length = DESK_TABLE_BYTES + (one_in(2) ? 0 : DESK_NODE_BYTES);
    if (one_in(10) && piece == &sheet)
        piece->length = SHEET_BYTES + (one_in(2) ? 0 : DESK_EDIT_BYTES);
}

static void damage_bit(struct bytes *piece)
{
    if (piece->length > 0)
        piece->at[below((int)piece->length)] ^= (uint8_t)(1 << below(8));
}

static void damage_site(void)
{
    const int s = one_in(2) ? below(8) : below(SLOTS), t = one_in(2) ? below(8) : below(SLOTS);
    if (site.length != DESK_SITE_BYTES)
        return;
    switch (below(9)) {
    case 0:
        site.at[s / 8] &= (uint8_t)~(1 << s % 8);
        break;
    case 1:
        site.at[0] &= 0xfe;
        break;
    case 2:
        site.at[NAMES_AT] = (uint8_t)s;
        break;
    case 3:
        site.at[NAMES_AT + below(NAMES)] = (uint8_t)s;
        break;
    case 4:
    case 5:
        put_slot(site.at + label_at(below(LABELS)), one_in(4) ? DESK_NIL : s);
        break;
    case 6:
        site.at[target_at(GENERAL + below(FUNCTIONAL), one_in(4) ? 0 : s)] = (uint8_t)t;
        break;
    case 7:
        put_slot(site.at + row_at(below(GENERAL), one_in(4) ? 0 : s), one_in(4) ? 0 : t);
        break;
    default:
        damage_bit(&site);
    }
}

/* A variable is left free, or a not stands above it; more may follow, so that these nodes are not reached. */
static void add_free_variable(int count)
{
    add_node(VARIABLE, below(2), 0, 0);
    if (one_in(2))
        add_node(NOT, 0, count, 0);
    for (int loops = below(4), last = node_count() - 1; loops > 0; loops--)
        add_node(between(MU, NU), below(2), last, 0);
    if (one_in(2))
        add_node(NOT, 0, count - 1, 0);
}

/* An operator for another of its shape. */
static void exchange_operator(uint8_t *node)
{
    if (node[0] == DIAMOND || node[0] == BOX) {
        node[0] ^= DIAMOND ^ BOX;
    } else if (node[0] == NOT) {
        node[0] = MU;
    } else if (node[0] == MU || node[0] == NU) {
        node[0] = NOT;
        node[1] = 0;
    }
}

static void damage_condition(void)
{
    int count = node_count();
    if (count == 0)
        return;
    int number = below(count);
    uint8_t *node = cond.at + DESK_NODE_BYTES * number;
    switch (below(7)) {
    case 0:
        node[0] = (uint8_t)(one_in(4) ? below(256) : below(KINDS + 1));
        break;
    case 1:
        node[1] = (uint8_t)(one_in(3) ? between(NAMES - 1, NAMES) : one_in(2) ? below(WAYS + 1) : below(256));
        break;
    case 2:
        node[2 + 2 * below(2)] = (uint8_t)(one_in(2) ? below(count + 1) : number);
        break;
    case 3:
        node[3 + 2 * below(2)] = (uint8_t)one_in(2);
        break;
    case 4:
        add_free_variable(count);
        break;
    case 5:
        exchange_operator(node);
        break;
    default:
        damage_bit(&cond);
    }
}

static void damage_sheet(void)
{
    static const uint8_t bounds[] = {0, GENERAL - 1, GENERAL, LINKS - 1, LINKS, OPERATIONS, LABELS - 1, LABELS, NAMES - 1, NAMES, 255};
    uint8_t edit[DESK_EDIT_BYTES];
    random_edit(edit, below(OPERATIONS));
    if (one_in(2))
        edit[below(DESK_EDIT_BYTES)] = one_in(4) ? (uint8_t)below(256) : bounds[below(sizeof bounds)];
    if (one_in(2) && sheet.length >= DESK_EDIT_BYTES)
        memcpy(sheet.at + DESK_EDIT_BYTES * below((int)sheet.length / DESK_EDIT_BYTES), edit, sizeof edit);
    else if (one_in(2) && sheet.length < SHEET_BYTES)
        append(&sheet, edit, sizeof edit);
    else
        damage_bit(&sheet);
}

static uint32_t some_unknown_edition(void)
{
    return one_in(4) ? 3 + (uint32_t)below(1 << 30) * 3 : unknown_editions[below(UNKNOWN_EDITIONS)];
}

/* Before the pieces are put together. */
static void damage_pieces(void)
{
    for (int k = one_in(2) ? between(2, 4) : 1; k > 0; k--) {
        int part = below(11);
        if (part == 10)
            edition = some_unknown_edition();
        else if (part == 0)
            damage_length(one_in(3) ? &site : one_in(2) ? &cond : &sheet, one_in(2) ? DESK_NODE_BYTES : DESK_EDIT_BYTES);
        else if (part <= 3)
            damage_site();
        else if (part >= 7)
            damage_sheet();
        else if (node_count() < NODES_MOST)
            damage_condition();
    }
}

/* ---- the file, and damage to it */

void put_number(uint8_t *at, size_t number)
{
    for (int k = 0; k < DESK_NUMBER_BYTES; k++)
        at[k] = (uint8_t)(number >> 8 * k);
}

static void put_trailer(uint8_t *at, size_t to_sheet, size_t to_cond, size_t to_site)
{
    put_number(at + DESK_TO_SHEET_AT, to_sheet);
    put_number(at + DESK_TO_CONDITION_AT, to_cond);
    put_number(at + DESK_TO_SITE_AT, to_site);
    put_number(at + DESK_EDITION_AT, edition);
}

/* A length at the bounds, with pieces that fill it. */
static void bound_file(void)
{
    static const size_t bounds[] = {DESK_TRAILER_BYTES, DESK_FILE_BYTES_MAX};
    file.length = bounds[below(2)] + (size_t)below(3) - 1;
    if (file.length < DESK_TRAILER_BYTES)
        return;
    size_t room = file.length - DESK_TRAILER_BYTES, back = (size_t)below((int)room + 1);
    put_trailer(file.at + room, one_in(2) ? back : (size_t)below((int)back + 1), back, room);
}

static void damage_file_length(void)
{
    switch (below(4)) {
    case 0:
        file.length = (size_t)below(one_in(2) ? DESK_TRAILER_BYTES + 4 : (int)file.length);
        break;
    case 1:
        file.length = (size_t)between((int)file.length, PIECE_MAX);
        break;
    case 2: /* a trailer without its end, or without the edition */
        file.length -= (size_t)between(1, DESK_NUMBER_BYTES);
        break;
    default:
        bound_file();
    }
}

static void damage_trailer(void)
{
    uint8_t *trailer = file.at + file.length - DESK_TRAILER_BYTES, *number = trailer + DESK_NUMBER_BYTES * below(4);
    uint8_t keep[DESK_NUMBER_BYTES];
    switch (below(7)) {
    case 0: /* the first number and another exchanged */
        memcpy(keep, trailer, sizeof keep);
        memmove(trailer, number, sizeof keep);
        memcpy(number, keep, sizeof keep);
        break;
    case 1:
        memset(number, 0xff, DESK_NUMBER_BYTES);
        break;
    case 2:
        ++*number;
        break;
    case 3: /* the pieces meet elsewhere */
        put_number(trailer, (size_t)below(300));
        break;
    case 4:
        memset(trailer, 0, (size_t)(number - trailer) + DESK_NUMBER_BYTES);
        break;
    case 5:
        put_number(trailer + DESK_EDITION_AT, some_unknown_edition());
        break;
    default:
        trailer[below(DESK_TRAILER_BYTES)] ^= (uint8_t)(1 << below(8));
    }
}

void build_file(void)
{
    uint8_t trailer[DESK_TRAILER_BYTES];
    file.length = 0;
    append(&file, site.at, site.length);
    append(&file, cond.at, cond.length);
    append(&file, sheet.at, sheet.length);
    put_trailer(trailer, sheet.length, sheet.length + cond.length, file.length);
    append(&file, trailer, sizeof trailer);
}

void build_job(uint64_t seed, int job)
{
    state = seed * 0x100000001b3u + (uint64_t)job;
    bool damaged = job % 2 == 1, in_file = one_in(6);
    edition = one_in(2) ? DESK_EDITION_2 : DESK_EDITION_1;
    random_site();
    model_read(&model, site.at);
    random_condition();
    random_sheet();
    if (damaged && !in_file)
        damage_pieces();
    build_file();
    if (damaged && in_file && one_in(3))
        damage_file_length();
    else if (damaged && in_file)
        damage_trailer();
}

/* ---- sites with long chains: slots in layers, and a link from each layer to the next for the most part */

enum { WIDEST = 4, DEEPEST = 60 };

struct layers {
    int width, depth;
    int link;
    bool back;                      /* the link goes against the layers */
    int slots[DEEPEST * WIDEST];    /* layer by layer, as wide as each other */
};

static struct layers random_layers(void)
{
    struct layers l = {.width = between(1, WIDEST), .depth = one_in(2) ? between(2, DEEPEST) : between(2, 10), .link = below(LINKS)};
    int all[SLOTS];
    const bool mixed = !one_in(3);
    l.back = one_in(2);
    for (int s = 1; s < SLOTS; s++)
        all[s - 1] = s;
    for (int k = 0; k < l.width * l.depth; k++) {
        int other = mixed ? between(k, SLOTS - 2) : k;
        l.slots[k] = all[other];
        all[other] = all[k];
    }
    return l;
}

static void put_step(const struct layers *l, int from, int to)
{
    const int a = l->slots[l->back ? to : from], b = l->slots[l->back ? from : to];
    if (l->link < GENERAL)
        put_slot(site.at + row_at(l->link, a), b);
    else
        site.at[target_at(l->link, a)] = (uint8_t)b;
}

/* Strays first: of a functional link's targets the last one stays. */
static void put_steps(const struct layers *l)
{
    const int count = l->width * l->depth, most = between(1, l->width), gaps = one_in(3) ? 8 : 400;
    for (int k = below(4); k > 0; k--)
        put_step(l, below(count), below(count));
    for (int k = 0; k < count - l->width; k++)
        for (int n = one_in(gaps) ? 0 : between(1, most); n > 0; n--)
            put_step(l, k, (k / l->width + 1) * l->width + below(l->width));
    if (l->link < GENERAL)
        for (int k = below(4); k > 0; k--)
            put_step(l, below(count), one_in(2) ? below(count) : below(l->width));
}

/* Label 0 is on some slots of the last layers. The goal is the label, its places by a loop, or one of them that a name has. */
static void build_goal(const struct layers *l)
{
    const int count = l->width * l->depth, last = l->slots[count - 1 - below(l->width)];
    put_slot(site.at + label_at(0), last);
    for (int k = below(4); k > 0; k--)
        put_slot(site.at + label_at(0), l->slots[between(count / 2, count - 1)]);
    site.at[NAMES_AT + 1] = (uint8_t)last;
    cond.length = 0;
    add_node(one_in(3) ? NAME : LABEL, 0, 0, 0);
    if (cond.at[0] == NAME)
        cond.at[1] = 1;
    if (one_in(4)) {
        add_node(VARIABLE, 15, 0, 0);
        add_node(one_in(2) ? DIAMOND : BOX, one_in(2) ? l->link : below(EVERYWHERE), 1, 0);
        add_node(one_in(2) ? AND : OR, 0, 0, 2);
        add_node(one_in(2) ? MU : NU, 15, 3, 0);
    }
}

struct route build_route(void)
{
    const struct layers l = random_layers();
    site.length = DESK_SITE_BYTES;
    memset(site.at, 0, site.length);
    put_slot(site.at, 0);
    for (int k = 0; k < l.width * l.depth; k++)
        put_slot(site.at, l.slots[k]);
    put_steps(&l);
    build_goal(&l);
    return (struct route){l.back ? l.link + LINKS : l.link, l.slots[below(l.width)]};
}
