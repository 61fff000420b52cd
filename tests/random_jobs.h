/* Random jobs, half of them damaged: the pieces of the job at hand, and how it is made. */
#ifndef RANDOM_JOBS_H
#define RANDOM_JOBS_H

#include "oracle.h"

/* Room for the longest piece that is tried. */
enum { PIECE_MAX = DESK_FILE_BYTES_MAX + 4096 };

struct bytes {
    size_t length;
    uint8_t at[PIECE_MAX];
};

extern struct bytes site, cond, sheet, file;
extern uint32_t edition; /* of the sheet */

/* Editions that are refused: next to the known ones, and with one of them in the low bytes. */
enum { UNKNOWN_EDITIONS = 12 };

extern const uint32_t unknown_editions[UNKNOWN_EDITIONS];

/* A number below the limit, and true once in so many times. */
int below(int limit);
bool one_in(int n);

void append(struct bytes *to, const uint8_t *from, size_t length);
void add_node(int kind, int param, int left, int right);

/* Puts a number into the trailer of a file. */
void put_number(uint8_t *at, size_t number);

/* Puts the pieces together, with the trailer. */
void build_file(void);

/* Makes the pieces and the file of a job. Odd jobs are damaged. */
void build_job(uint64_t seed, int job);

/* Makes a site with long chains and many of them, and a goal at the end of some; gives the way that they go and a slot where they begin. */
struct route {
    int way, start;
};

struct route build_route(void);

#endif
