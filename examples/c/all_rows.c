/* all_rows CONFIGURATION DATA: prints every row of a recording of any kind, as the listing does, in time that grows with its
 * bytes. zl_row checks the whole data file at each call; here the file is checked once and changed to a kind that every sample
 * fits, and then the rows are read one after the other. That kind is binary32; the edition of 1999 lacks it, and there it is
 * ASCII. A missing sample is printed as x. */
#include "recording.h"

#include <stdio.h>
#include <stdlib.h>

/* A row of binary32: 4 bytes of number, 4 of time, 4 for each sample and 2 for each 16 statuses, or a part of 16. */
enum { TIME = 4, SAMPLES = 8, SAMPLE_SIZE = 4, STATUS_WORD_SIZE = 2 };

/* What is kept for a missing sample: a word in binary32, a number in a text of 1999. */
static const uint32_t missing_word = 0x80000000;
static const int64_t missing_number = 99999;

static size_t row_size(zl_layout layout)
{
    return SAMPLES + SAMPLE_SIZE * (size_t)layout.a + STATUS_WORD_SIZE * (((size_t)layout.d + 15) / 16);
}

/* A number of 32 bits, the low byte first. */
static uint32_t word_at(const uint8_t *bytes)
{
    return bytes[0] | (uint32_t)bytes[1] << 8 | (uint32_t)bytes[2] << 16 | (uint32_t)bytes[3] << 24;
}

/* The number that 32 bits say in two's complement. */
static int64_t signed_of(uint32_t word)
{
    return word <= INT32_MAX ? (int64_t)word : (int64_t)word - UINT32_MAX - 1;
}

/* The place of a sample, as zl_row shows it: whether it is missing comes first, and only else is the word a number. */
static int64_t sample_of(uint32_t word)
{
    return word == missing_word ? ZL_NONE : signed_of(word);
}

/* Reads a row of binary32 from its bytes into places, as zl_row shows them, and answers where the next begins. Status k, from 0,
 * is bit k of the words, the lowest first. */
static const uint8_t *read_bytes(zl_layout layout, const uint8_t *bytes, int64_t *row)
{
    const uint8_t *samples = bytes + SAMPLES, *statuses = samples + SAMPLE_SIZE * layout.a;
    row[ZL_ROW_TIME] = word_at(bytes + TIME);
    for (uint32_t k = 0; k < layout.a; k++)
        row[ZL_ROW_SAMPLES + k] = sample_of(word_at(samples + SAMPLE_SIZE * k));
    for (uint32_t k = 0; k < layout.d; k++)
        row[ZL_ROW_SAMPLES + layout.a + k] = statuses[k / 8] >> k % 8 & 1;
    return bytes + row_size(layout);
}

/* The number of a plain field. The place is moved past the byte that ends the field. */
static int64_t number_at(const uint8_t **at)
{
    int64_t number = 0;
    int below = **at == '-';
    for (*at += below; **at >= '0' && **at <= '9'; ++*at)
        number = number * 10 + (**at - '0');
    ++*at;
    return below ? -number : number;
}

/* Reads a row from its plain line in a text of 1999 into places, as zl_row shows them, and answers where the next begins. */
static const uint8_t *read_line(zl_layout layout, const uint8_t *line, int64_t *row)
{
    number_at(&line); /* the row's number, which is not among the places */
    for (uint32_t k = 0; k < 1 + layout.a + layout.d; k++)
        row[k] = number_at(&line);
    for (uint32_t k = 0; k < layout.a; k++)
        if (row[ZL_ROW_SAMPLES + k] == missing_number)
            row[ZL_ROW_SAMPLES + k] = ZL_NONE;
    return line + 1; /* CR has ended the last field, and LF is left */
}

/* The rows stand one after the other. */
static void print_rows(zl_layout layout, const uint8_t *data)
{
    int64_t row[ZL_MOST_ROW_PLACES];
    for (uint32_t n = 1; n <= layout.rows; n++) {
        data = layout.edition == ZL_EDITION_1999 ? read_line(layout, data, row) : read_bytes(layout, data, row);
        print_row(layout, n, row);
    }
}

int main(int count, char **words)
{
    struct recording r;
    struct bytes changed;
    if (count != 3) {
        fprintf(stderr, "usage: all_rows CONFIGURATION DATA\n");
        return TROUBLE;
    }
    int status = load(words[1], words[2], &r);
    if (status != DONE)
        return status;
    status = change(&r, r.layout.edition == ZL_EDITION_1999 ? ZL_ASCII : ZL_BINARY32, &changed);
    unload(&r);
    if (status != DONE)
        return status;
    print_layout(r.layout);
    print_rows(r.layout, changed.start);
    free(changed.start);
    return all_printed();
}
