/* moments CONFIGURATION: prints date and time of the first sample and of the trigger, and the pre-trigger time, which is the trigger
 * minus the first sample. A recorder without a clock has no date: that is printed as no date, and the pre-trigger time as unknown. */
#include "recording.h"

#include <inttypes.h>
#include <stdio.h>
#include <stdlib.h>

/* Whether there is a date comes first, and only else are its seven places numbers. */
static void print_moment(const char *name, const int64_t *moment)
{
    if (moment[ZL_MOMENT_YEAR] == ZL_NONE) {
        printf("%s no date\n", name);
        return;
    }
    printf("%s %02" PRId64 "/%02" PRId64 "/%" PRId64, name, moment[ZL_MOMENT_DAY], moment[ZL_MOMENT_MONTH],
           moment[ZL_MOMENT_YEAR]);
    printf(" %02" PRId64 ":%02" PRId64 ":%02" PRId64 ".%09" PRId64 "\n", moment[ZL_MOMENT_HOUR], moment[ZL_MOMENT_MINUTE],
           moment[ZL_MOMENT_SECOND], moment[ZL_MOMENT_NANOSECOND]);
}

/* The seconds are rounded down, and the nanoseconds are added to them. */
static void print_pre_trigger(int64_t seconds, int64_t nanoseconds)
{
    if (seconds == ZL_NONE)
        printf("pre-trigger time unknown\n");
    else
        printf("pre-trigger time %" PRId64 " s and %" PRId64 " ns\n", seconds, nanoseconds);
}

int main(int count, char **words)
{
    struct bytes cfg;
    int64_t shown[ZL_CONFIG_PLACES];
    if (count != 2) {
        fprintf(stderr, "usage: moments CONFIGURATION\n");
        return TROUBLE;
    }
    int status = read_file(words[1], &cfg);
    if (status != DONE)
        return status;
    status = show_config(cfg, shown);
    free(cfg.start);
    if (status != DONE)
        return status;
    print_moment("first sample", shown + ZL_SHOWN_FIRST_SAMPLE);
    print_moment("trigger", shown + ZL_SHOWN_TRIGGER);
    print_pre_trigger(shown[ZL_SHOWN_PRE_TRIGGER_SECONDS], shown[ZL_SHOWN_PRE_TRIGGER_NANOSECONDS]);
    return all_printed();
}
