/* What the examples share: a recording, loaded from its two files, its data file changed to another kind and its rows printed
 * as the listing does, and refusals said in words. */
#ifndef RECORDING_H
#define RECORDING_H

#include "zagalume.h"

/* How an example ends, as diff and grep do: all was done; the recording is refused; a file can't be read or written, or the
 * arguments are wrong. The last two come with a line on standard error. */
enum {
    DONE = 0,
    REFUSED = 1,
    TROUBLE = 2
};

/* The bytes of a file, freed by whoever has them. */
struct bytes {
    uint8_t *start;
    size_t length;
};

struct recording {
    zl_layout layout;
    struct bytes cfg, data;
};

/* The kinds' words, by number. */
extern const char *const kind_words[3];

/* Reads a whole file. */
int read_file(const char *name, struct bytes *read);

/* Shows a configuration in ZL_CONFIG_PLACES places. */
int show_config(struct bytes cfg, int64_t *shown);

/* Loads a recording. The data file is not checked yet. */
int load(const char *cfg_name, const char *dat_name, struct recording *recording);

/* Frees the bytes of both files. */
void unload(struct recording *recording);

/* Room for so many bytes, or TROUBLE after a line on standard error that says what it was for. */
int lend(size_t length, const char *what, struct bytes *room);

/* The data file in another kind, or the same: asks how long it is, lends so much room and changes it. */
int change(const struct recording *recording, uint32_t new_kind, struct bytes *changed);

/* Prints the first line of a listing. */
void print_layout(zl_layout layout);

/* Prints a row as a line of the listing: its number, then its places, the time, the samples and the statuses. A missing sample
 * is no number, and is printed as x. */
void print_row(zl_layout layout, uint32_t n, const int64_t *row);

/* DONE where all that was printed has gone out, else TROUBLE. */
int all_printed(void);

/* Says a refusal on standard error, as the listing prints it and with its meaning, and answers REFUSED: which file,
 * number, line or row, field. */
int say_refusal(const char *file, zl_answer answer);

#endif
