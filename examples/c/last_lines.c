/* last_lines CONFIGURATION: prints the edition of a configuration and what its last two lines say: the time codes, the quality and
 * the leap code. A configuration of 1999 has no such lines, and each of these is printed as absent. */
#include "recording.h"

#include <inttypes.h>
#include <stdio.h>
#include <stdlib.h>

/* Whether there is a value comes first, and only else is its place a number. */
static void print_value(const char *name, int64_t place)
{
    if (place == ZL_NONE)
        printf("%s absent\n", name);
    else
        printf("%s %" PRId64 "\n", name, place);
}

/* The place of x is compared with 1: ZL_NONE is true too. */
static void print_local_code(const int64_t *shown)
{
    if (shown[ZL_SHOWN_LOCAL_IS_X] == 1)
        printf("local code x\n");
    else
        print_value("local code", shown[ZL_SHOWN_LOCAL_CODE]);
}

int main(int count, char **words)
{
    struct bytes cfg;
    int64_t shown[ZL_CONFIG_PLACES];
    if (count != 2) {
        fprintf(stderr, "usage: last_lines CONFIGURATION\n");
        return TROUBLE;
    }
    int status = read_file(words[1], &cfg);
    if (status != DONE)
        return status;
    status = show_config(cfg, shown);
    free(cfg.start);
    if (status != DONE)
        return status;
    print_value("edition", shown[ZL_SHOWN_EDITION]);
    print_value("time code", shown[ZL_SHOWN_TIME_CODE]);
    print_local_code(shown);
    print_value("quality", shown[ZL_SHOWN_QUALITY]);
    print_value("leap code", shown[ZL_SHOWN_LEAP_CODE]);
    return all_printed();
}
