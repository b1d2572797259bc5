/* change_kind CONFIGURATION DATA KIND NEW_CONFIGURATION NEW_DATA: changes a recording to another kind (ASCII, binary or
 * binary32) and writes both files, the configuration first. Where either is refused, none is written. */
#include "recording.h"

#include <stdio.h>
#include <stdlib.h>
#include <string.h>

/* The number of a kind's word, or 3, which is no kind. */
static uint32_t kind_of(const char *word)
{
    uint32_t kind = 0;
    while (kind < 3 && strcmp(word, kind_words[kind]) != 0)
        kind++;
    return kind;
}

/* The configuration in another kind, or the same. */
static int change_configuration(struct bytes cfg, uint32_t new_kind, struct bytes *changed)
{
    int status = lend(ZL_MOST_CONFIG_BYTES, "the new configuration", changed);
    if (status != DONE)
        return status;
    zl_answer done = zl_write_config(cfg.start, cfg.length, new_kind, changed->start, changed->length);
    changed->length = done.length;
    if (done.number == ZL_YES)
        return DONE;
    free(changed->start);
    return say_refusal("cfg", done);
}

/* Both files in another kind, in memory. */
static int change_both(const struct recording *old, uint32_t new_kind, struct recording *changed)
{
    changed->layout = old->layout;
    changed->layout.kind = new_kind;
    int status = change_configuration(old->cfg, new_kind, &changed->cfg);
    if (status != DONE)
        return status;
    status = change(old, new_kind, &changed->data);
    if (status != DONE)
        free(changed->cfg.start);
    return status;
}

static int write_file(const char *name, struct bytes bytes)
{
    FILE *file = fopen(name, "wb");
    int written = file != NULL && fwrite(bytes.start, 1, bytes.length, file) == bytes.length;
    if (file != NULL && fclose(file) != 0)
        written = 0;
    if (written)
        return DONE;
    fprintf(stderr, "%s can't be written\n", name);
    return TROUBLE;
}

/* Says how long the data file was and is, and the new configuration. */
static int say_lengths(const struct recording *old, const struct recording *changed)
{
    printf("%zu bytes of %s are %zu bytes of %s, with a configuration of %zu bytes\n", old->data.length,
           kind_words[old->layout.kind], changed->data.length, kind_words[changed->layout.kind], changed->cfg.length);
    return all_printed();
}

/* Changes a recording and writes it to two files. */
static int change_to(const struct recording *old, uint32_t new_kind, const char *cfg_name, const char *dat_name)
{
    struct recording changed;
    int status = change_both(old, new_kind, &changed);
    if (status != DONE)
        return status;
    status = write_file(cfg_name, changed.cfg);
    if (status == DONE)
        status = write_file(dat_name, changed.data);
    if (status == DONE)
        status = say_lengths(old, &changed);
    unload(&changed);
    return status;
}

int main(int count, char **words)
{
    struct recording r;
    uint32_t new_kind = count == 6 ? kind_of(words[3]) : 3;
    if (new_kind == 3) {
        fprintf(stderr, "usage: change_kind CONFIGURATION DATA KIND NEW_CONFIGURATION NEW_DATA, where KIND is ASCII, binary or "
                        "binary32\n");
        return TROUBLE;
    }
    int status = load(words[1], words[2], &r);
    if (status != DONE)
        return status;
    status = change_to(&r, new_kind, words[4], words[5]);
    unload(&r);
    return status;
}
