#include "recording.h"

#include <inttypes.h>
#include <stdio.h>
#include <stdlib.h>

const char *const kind_words[3] = {"ASCII", "binary", "binary32"};

/* The bytes of a file that is open, or null where memory or the file fails. */
static uint8_t *read_all(FILE *file, size_t *length)
{
    size_t room = 65536, used = 0;
    uint8_t *bytes = malloc(room);
    while (bytes != NULL) {
        used += fread(bytes + used, 1, room - used, file);
        if (used < room)
            break;
        uint8_t *longer = room > SIZE_MAX / 2 ? NULL : realloc(bytes, room * 2);
        if (longer == NULL)
            free(bytes);
        bytes = longer;
        room *= 2;
    }
    if (bytes != NULL && ferror(file)) {
        free(bytes);
        bytes = NULL;
    }
    *length = used;
    return bytes;
}

int read_file(const char *name, struct bytes *read)
{
    FILE *file = fopen(name, "rb");
    read->start = file == NULL ? NULL : read_all(file, &read->length);
    if (file != NULL)
        fclose(file);
    if (read->start != NULL)
        return DONE;
    fprintf(stderr, "%s can't be read\n", name);
    return TROUBLE;
}

int say_refusal(const char *file, zl_answer answer)
{
    fprintf(stderr, "no %s %" PRIu32 " %" PRIu32 " %" PRIu32 ": %s\n", file, answer.number, answer.at, answer.field,
            zl_reason_text(answer.number));
    return REFUSED;
}

int show_config(struct bytes cfg, int64_t *shown)
{
    zl_answer answer = zl_config(cfg.start, cfg.length, shown, ZL_CONFIG_PLACES);
    return answer.number == ZL_YES ? DONE : say_refusal("cfg", answer);
}

/* Takes the layout from a configuration. */
static int take_layout(struct bytes cfg, zl_layout *layout)
{
    int64_t shown[ZL_CONFIG_PLACES];
    int status = show_config(cfg, shown);
    if (status == DONE)
        *layout = zl_layout_of(shown);
    return status;
}

int load(const char *cfg_name, const char *dat_name, struct recording *recording)
{
    int status = read_file(cfg_name, &recording->cfg);
    if (status != DONE)
        return status;
    status = take_layout(recording->cfg, &recording->layout);
    if (status == DONE)
        status = read_file(dat_name, &recording->data);
    if (status != DONE)
        free(recording->cfg.start);
    return status;
}

void unload(struct recording *recording)
{
    free(recording->cfg.start);
    free(recording->data.start);
}

int lend(size_t length, const char *what, struct bytes *room)
{
    room->start = malloc(length);
    room->length = length;
    if (room->start != NULL)
        return DONE;
    fprintf(stderr, "there is no memory for %s\n", what);
    return TROUBLE;
}

int change(const struct recording *recording, uint32_t new_kind, struct bytes *changed)
{
    struct bytes data = recording->data;
    zl_answer needed = zl_length_in(recording->layout, data.start, data.length, new_kind);
    if (needed.number != ZL_YES)
        return say_refusal("dat", needed);
    int status = lend(needed.length, "the new data file", changed);
    if (status != DONE)
        return status;
    zl_answer done = zl_change_in(recording->layout, data.start, data.length, new_kind, changed->start, changed->length);
    if (done.number == ZL_YES)
        return DONE;
    free(changed->start);
    return say_refusal("dat", done);
}

void print_layout(zl_layout layout)
{
    printf("A %" PRIu32 " D %" PRIu32 " rows %" PRIu32 " %s\n", layout.a, layout.d, layout.rows, kind_words[layout.kind]);
}

void print_row(zl_layout layout, uint32_t n, const int64_t *row)
{
    printf("%" PRIu32, n);
    for (uint32_t k = 0; k < 1 + layout.a + layout.d; k++) {
        if (zl_is_missing(row[k]))
            printf(" x");
        else
            printf(" %" PRId64, row[k]);
    }
    printf("\n");
}

int all_printed(void)
{
    if (fflush(stdout) == 0 && !ferror(stdout))
        return DONE;
    fprintf(stderr, "standard output can't be written\n");
    return TROUBLE;
}
