/* first_row CONFIGURATION DATA: loads a recording and prints its layout and its first row, as the listing does, a missing
 * sample as x. */
#include "recording.h"

#include <stdio.h>

int main(int count, char **words)
{
    struct recording r;
    int64_t row[ZL_MOST_ROW_PLACES];
    if (count != 3) {
        fprintf(stderr, "usage: first_row CONFIGURATION DATA\n");
        return TROUBLE;
    }
    int status = load(words[1], words[2], &r);
    if (status != DONE)
        return status;
    zl_answer answer = zl_row_in(r.layout, r.data.start, r.data.length, 1, row, ZL_MOST_ROW_PLACES);
    unload(&r);
    if (answer.number != ZL_YES)
        return say_refusal("dat", answer);
    print_layout(r.layout);
    print_row(r.layout, 1, row);
    return all_printed();
}
