/* Calls every function of zagalume.h, as C and as C++: what is answered, and that nothing changes but what an answer reports.
 * One recording, A = 1, D = 1, two rows, and the same with its first sample missing; the same in the edition of 1999, and with no date; for the forms that take a layout A = 2, D = 1, one row.
 * Prints what differs and then how many answers were held. */
#include "zagalume.h"

#include <stdio.h>
#include <string.h>

/* The lines after the channels' numbers, up to the dates; the two of dates; those up to the kind's word, and after it. */
#define CHANNELS "1,Ia,A,,A,0.5,0,0,-2048,2047,400,1,S\r\n1,Trip,,,0\r\n50\r\n1\r\n1000,2\r\n"
#define FIRST_SAMPLE "03/02/2024,09:15:00.000000"
#define TRIGGER "03/02/2024,09:15:00.001000"
#define MIDDLE CHANNELS FIRST_SAMPLE "\r\n" TRIGGER "\r\n"
#define END "\r\n1\r\n0,0\r\n0,3"

static const char configuration[] = "Bench 2,R7,2013\r\n2,1A,1D\r\n" MIDDLE "ASCII" END "\r\n";
static const char binary_configuration[] = "Bench 2,R7,2013\r\n2,1A,1D\r\n" MIDDLE "binary" END "\r\n";
static const char spaced_configuration[] = "Bench 2,R7,2013\r\n     2, 1A,  1D\r\n" MIDDLE "BINARY32" END;
/* The recording in the edition of 1999, and with the lines that this edition lacks. */
static const char older_configuration[] = "Bench 2,R7,1999\r\n2,1A,1D\r\n" MIDDLE "ASCII\r\n1\r\n";
static const char older_binary_configuration[] = "Bench 2,R7,1999\r\n2,1A,1D\r\n" MIDDLE "binary\r\n1\r\n";
static const char older_spaced[] = "Bench 2,R7,1999\r\n2,1A,1D\r\n" MIDDLE "ASCII\r\n  1";
static const char older_with_codes[] = "Bench 2,R7,1999\r\n2,1A,1D\r\n" MIDDLE "ASCII" END "\r\n";
static const char older_binary32[] = "Bench 2,R7,1999\r\n2,1A,1D\r\n" MIDDLE "BINARY32\r\n1\r\n";
static const char oldest_configuration[] = "Bench 2,R7,1991\r\n2,1A,1D\r\n" MIDDLE "ASCII\r\n1\r\n";
static const char text_file[] = "1,0,-3,0\r\n2,1000,300,1\r\n\x1A\r\n";
static const uint8_t binary_file[] = {1, 0, 0, 0, 0, 0, 0, 0, 0xFD, 0xFF, 0, 0, 2, 0, 0, 0, 0xE8, 3, 0, 0, 0x2C, 1, 1, 0};

enum { BYTES = 300, PLACES = 40, TEXT_LENGTH = sizeof text_file - 1 };

/* What is lent to be written: filled before each call. */
static uint8_t out[BYTES];
static int64_t shown[PLACES];
static int held = 0, differ = 0;

static void fill(void)
{
    memset(out, 7, sizeof out);
    for (int k = 0; k < PLACES; k++)
        shown[k] = 7;
}

/* Whether the bytes and places from these on are as they were filled. */
static int untouched(size_t byte, size_t place)
{
    while (byte < BYTES && out[byte] == 7)
        byte++;
    while (place < PLACES && shown[place] == 7)
        place++;
    return byte == BYTES && place == PLACES;
}

static void judge(const char *what, int right)
{
    held++;
    if (!right) {
        differ++;
        printf("%s differs\n", what);
    }
    fill();
}

static void judge_no(const char *what, zl_answer answer, uint32_t number, uint32_t at, uint32_t field)
{
    int told = answer.number == number && answer.at == at && answer.field == field && answer.length == 0;
    judge(what, told && untouched(0, 0));
}

/* A yes that wrote these bytes, or none, and so many places. */
static void judge_yes(const char *what, zl_answer answer, const void *bytes, uint32_t length, size_t places)
{
    int told = answer.number == ZL_YES && answer.at == 0 && answer.field == 0 && answer.length == length;
    int wrote = bytes == NULL || memcmp(out, bytes, length) == 0;
    judge(what, told && wrote && untouched(bytes == NULL ? 0 : length, places));
}

static const uint8_t *bytes_of(const char *text)
{
    return (const uint8_t *)text;
}

static void configurations(void)
{
    const uint8_t *cfg = bytes_of(configuration);
    size_t length = sizeof configuration - 1;
    zl_answer answer = zl_config(cfg, length, shown, PLACES);
    int first = shown[ZL_SHOWN_FIRST_SAMPLE + ZL_MOMENT_YEAR] == 2024 && shown[ZL_SHOWN_FIRST_SAMPLE + ZL_MOMENT_DAY] == 3;
    int trigger = shown[ZL_SHOWN_TRIGGER + ZL_MOMENT_HOUR] == 9 && shown[ZL_SHOWN_TRIGGER + ZL_MOMENT_NANOSECOND] == 1000000;
    int counts = shown[ZL_SHOWN_ANALOGS] == 1 && shown[ZL_SHOWN_ROWS] == 2 && shown[ZL_SHOWN_LAST_ROWS] == 2;
    int rest = shown[ZL_SHOWN_PRE_TRIGGER_NANOSECONDS] == 1000000 && shown[ZL_SHOWN_LEAP_CODE] == 3 && shown[ZL_SHOWN_EDITION] == ZL_EDITION_2013;
    judge("what a configuration shows", first && trigger && counts && rest && shown[ZL_SHOWN_KIND] == ZL_ASCII && untouched(0, ZL_CONFIG_PLACES));
    judge_yes("a configuration", answer, NULL, 0, 0);
    judge_no("no configuration", zl_config(NULL, 0, NULL, 0), ZL_REFUSED_EARLY_END, 1, 0);
    judge_no("a configuration cut short", zl_config(cfg, length - 5, shown, PLACES), ZL_REFUSED_EARLY_END, 13, 0);
    judge_no("a place too few", zl_config(cfg, length, shown, ZL_CONFIG_PLACES - 1), ZL_REFUSED_NO_ROOM, 0, 0);
}

static void written_configurations(void)
{
    const uint8_t *cfg = bytes_of(configuration), *spaced = bytes_of(spaced_configuration);
    const uint32_t length = sizeof configuration - 1, spaced_length = sizeof spaced_configuration - 1, binary_length = sizeof binary_configuration - 1;
    judge_yes("a configuration to binary", zl_write_config(cfg, length, ZL_BINARY, out, BYTES), binary_configuration, binary_length, 0);
    judge_yes("a configuration with spaces", zl_write_config(spaced, spaced_length, ZL_ASCII, out, length), configuration, length, 0);
    judge_no("no configuration to no kind", zl_write_config(NULL, 0, 3, NULL, 0), ZL_REFUSED_EARLY_END, 1, 0);
    judge_no("a configuration to no kind", zl_write_config(cfg, length, 3, NULL, 0), ZL_REFUSED_LAYOUT, 0, 0);
    judge_no("a configuration with no room", zl_write_config(cfg, length, ZL_BINARY, NULL, 0), ZL_REFUSED_NO_ROOM, 0, 0);
    judge_no("a byte too few for a configuration", zl_write_config(cfg, length, ZL_BINARY, out, binary_length - 1), ZL_REFUSED_NO_ROOM, 0, 0);
}

static void rows(void)
{
    const uint8_t *text = bytes_of(text_file);
    static const int64_t row[] = {1000, 300, 1}, misfit[] = {0, 40000, 2};
    zl_answer answer = zl_row(1, 1, 2, ZL_ASCII, ZL_EDITION_2013, text, TEXT_LENGTH, 2, shown, PLACES);
    int right = shown[ZL_ROW_TIME] == 1000 && shown[ZL_ROW_SAMPLES] == 300 && shown[ZL_ROW_SAMPLES + 1] == 1;
    judge("what row 2 shows", right && untouched(0, 3));
    judge_yes("row 2", answer, NULL, 0, 0);
    judge_no("row 3", zl_row(1, 1, 2, ZL_ASCII, ZL_EDITION_2013, NULL, 0, 3, NULL, 0), ZL_REFUSED_NO_SUCH_ROW, 0, 0);
    judge_no("row 1 of nothing", zl_row(1, 1, 2, ZL_ASCII, ZL_EDITION_2013, NULL, 0, 1, NULL, 0), ZL_REFUSED_FILE_LENGTH, 1, 0);
    judge_no("no places", zl_row(1, 1, 2, ZL_ASCII, ZL_EDITION_2013, text, TEXT_LENGTH, 1, NULL, 0), ZL_REFUSED_NO_ROOM, 0, 0);
    judge_yes("row 2 as text", zl_write_row(1, 1, 2, ZL_ASCII, ZL_EDITION_2013, 2, row, 3, out, BYTES), text_file + 10, 14, 0);
    judge_yes("row 2 as binary", zl_write_row(1, 1, 2, ZL_BINARY, ZL_EDITION_2013, 2, row, 3, out, 12), binary_file + 12, 12, 0);
    judge_no("a row of two places", zl_write_row(1, 1, 2, ZL_BINARY, ZL_EDITION_2013, 3, row, 2, out, BYTES), ZL_REFUSED_LAYOUT, 0, 0);
    judge_no("a row of none", zl_write_row(1, 1, 2, ZL_BINARY, ZL_EDITION_2013, 1, NULL, 0, NULL, 0), ZL_REFUSED_LAYOUT, 0, 0);
    judge_no("row 0 written", zl_write_row(1, 1, 2, ZL_BINARY, ZL_EDITION_2013, 0, misfit, 3, NULL, 0), ZL_REFUSED_NO_SUCH_ROW, 0, 0);
    judge_no("a misfit", zl_write_row(1, 1, 2, ZL_BINARY, ZL_EDITION_2013, 2, misfit, 3, NULL, 0), ZL_REFUSED_MISFIT, 2, 3);
    judge_no("a status of 2", zl_write_row(1, 1, 2, ZL_BINARY32, ZL_EDITION_2013, 2, misfit, 3, NULL, 0), ZL_REFUSED_MISFIT, 2, 4);
    judge_no("a byte too few", zl_write_row(1, 1, 2, ZL_BINARY, ZL_EDITION_2013, 2, row, 3, out, 11), ZL_REFUSED_NO_ROOM, 0, 0);
}

static void files(void)
{
    const uint8_t *text = bytes_of(text_file), *binary = binary_file;
    judge_yes("a text", zl_check(1, 1, 2, ZL_ASCII, ZL_EDITION_2013, text, TEXT_LENGTH), NULL, 0, 0);
    judge_no("the text as binary", zl_check(1, 1, 2, ZL_BINARY, ZL_EDITION_2013, text, TEXT_LENGTH), ZL_REFUSED_FILE_LENGTH, 0, 0);
    judge_no("no such kind", zl_check(1, 1, 2, 3, ZL_EDITION_2013, NULL, 0), ZL_REFUSED_LAYOUT, 0, 0);
    judge_no("no channels", zl_check(0, 0, 2, ZL_ASCII, ZL_EDITION_2013, NULL, 0), ZL_REFUSED_LAYOUT, 0, 0);
    judge_no("channels that wrap", zl_check(UINT32_MAX, 2, 2, ZL_ASCII, ZL_EDITION_2013, NULL, 0), ZL_REFUSED_LAYOUT, 0, 0);
    judge_yes("the length", zl_length(1, 1, 2, ZL_ASCII, ZL_EDITION_2013, text, TEXT_LENGTH, ZL_BINARY), NULL, 24, 0);
    judge_no("the length of nothing", zl_length(1, 1, 2, ZL_ASCII, ZL_EDITION_2013, NULL, 0, ZL_BINARY), ZL_REFUSED_FILE_LENGTH, 1, 0);
    judge_no("no such new kind", zl_length(1, 1, 2, ZL_ASCII, ZL_EDITION_2013, NULL, 0, 3), ZL_REFUSED_LAYOUT, 0, 0);
    judge_yes("text to binary", zl_change(1, 1, 2, ZL_ASCII, ZL_EDITION_2013, text, TEXT_LENGTH, ZL_BINARY, out, BYTES), binary_file, 24, 0);
    judge_yes("binary to text", zl_change(1, 1, 2, ZL_BINARY, ZL_EDITION_2013, binary, 24, ZL_ASCII, out, 27), text_file, 27, 0);
    judge_no("no room", zl_change(1, 1, 2, ZL_BINARY, ZL_EDITION_2013, binary, 24, ZL_ASCII, NULL, 0), ZL_REFUSED_NO_ROOM, 0, 0);
    judge_no("a change of nothing", zl_change(1, 1, 2, ZL_BINARY, ZL_EDITION_2013, NULL, 0, ZL_ASCII, NULL, 0), ZL_REFUSED_FILE_LENGTH, 0, 0);
    judge_no("a change to no kind", zl_change(1, 1, 2, ZL_BINARY, ZL_EDITION_2013, binary, 24, 3, out, BYTES), ZL_REFUSED_LAYOUT, 0, 0);
}

/* The recording with its first sample missing, by kind, and its first row in places. */
static const char missing_text[] = "1,0,,0\r\n2,1000,300,1\r\n\x1A\r\n";
static const uint8_t missing_binary[] = {1, 0, 0, 0, 0, 0, 0, 0, 0, 0x80, 0, 0, 2, 0, 0, 0, 0xE8, 3, 0, 0, 0x2C, 1, 1, 0};
static const uint8_t missing_binary32[] = {1, 0, 0, 0, 0, 0, 0, 0, 0, 0, 0, 0x80, 0, 0, 2, 0, 0, 0, 0xE8, 3, 0, 0, 0x2C, 1, 0, 0, 1, 0};
static const void *const missing_files[] = {missing_text, missing_binary, missing_binary32};
static const uint32_t missing_lengths[] = {sizeof missing_text - 1, sizeof missing_binary, sizeof missing_binary32};
static const uint32_t missing_rows[] = {8, 12, 14};
static const int64_t missing_row[] = {0, ZL_NONE, 0};

/* A missing sample is shown as ZL_NONE, written from it, and stays missing in every kind. */
static void missing_in(uint32_t kind)
{
    const uint8_t *data = (const uint8_t *)missing_files[kind];
    uint32_t length = missing_lengths[kind];
    zl_answer answer = zl_row(1, 1, 2, kind, ZL_EDITION_2013, data, length, 1, shown, PLACES);
    judge("what a row with a missing sample shows", memcmp(shown, missing_row, sizeof missing_row) == 0 && zl_is_missing(shown[ZL_ROW_SAMPLES]) && untouched(0, 3));
    judge_yes("a row with a missing sample", answer, NULL, 0, 0);
    judge_yes("a file with a missing sample", zl_check(1, 1, 2, kind, ZL_EDITION_2013, data, length), NULL, 0, 0);
    judge_yes("a missing sample written", zl_write_row(1, 1, 2, kind, ZL_EDITION_2013, 1, missing_row, 3, out, BYTES), data, missing_rows[kind], 0);
    judge_no("a missing sample with no room", zl_write_row(1, 1, 2, kind, ZL_EDITION_2013, 1, missing_row, 3, out, missing_rows[kind] - 1), ZL_REFUSED_NO_ROOM, 0, 0);
    for (uint32_t new_kind = ZL_ASCII; new_kind <= ZL_BINARY32; new_kind++) {
        judge_yes("the length with a missing sample", zl_length(1, 1, 2, kind, ZL_EDITION_2013, data, length, new_kind), NULL, missing_lengths[new_kind], 0);
        judge_yes("a missing sample changed", zl_change(1, 1, 2, kind, ZL_EDITION_2013, data, length, new_kind, out, BYTES), missing_files[new_kind], missing_lengths[new_kind], 0);
    }
}

/* ZL_NONE is for samples alone, and the numbers next to it, and those that a kind keeps for a missing sample, are no samples. */
static void no_samples_in(uint32_t kind)
{
    static const int64_t time[] = {ZL_NONE, 0, 0}, status[] = {0, 0, ZL_NONE}, lowest[] = {0, INT32_MIN, 0}, near_none[] = {0, ZL_NONE + 1, 0};
    judge_no("a time of ZL_NONE", zl_write_row(1, 1, 2, kind, ZL_EDITION_2013, 2, time, 3, out, BYTES), ZL_REFUSED_MISFIT, 2, 2);
    judge_no("a status of ZL_NONE", zl_write_row(1, 1, 2, kind, ZL_EDITION_2013, 2, status, 3, out, BYTES), ZL_REFUSED_MISFIT, 2, 4);
    judge_no("the lowest number of 32 bits", zl_write_row(1, 1, 2, kind, ZL_EDITION_2013, 2, lowest, 3, out, BYTES), ZL_REFUSED_MISFIT, 2, 3);
    judge_no("a number near ZL_NONE", zl_write_row(1, 1, 2, kind, ZL_EDITION_2013, 2, near_none, 3, out, BYTES), ZL_REFUSED_MISFIT, 2, 3);
}

/* The check of a text of one row, A = 1, D = 1. */
static zl_answer check_line(uint32_t edition, const char *line)
{
    return zl_check(1, 1, 1, ZL_ASCII, edition, bytes_of(line), strlen(line));
}

static void missing_samples(void)
{
    static const int64_t lowest[] = {0, -32767, 0}, below[] = {0, -32768, 0};
    static const uint8_t lowest_row[] = {2, 0, 0, 0, 0, 0, 0, 0, 1, 0x80, 0, 0};
    static const char low_text[] = "1,0,-32768,0\r\n";
    judge("what is missing", zl_is_missing(ZL_NONE) && !zl_is_missing(0) && !zl_is_missing(INT32_MIN) && !zl_is_missing(ZL_NONE + 1));
    for (uint32_t kind = ZL_ASCII; kind <= ZL_BINARY32; kind++) {
        missing_in(kind);
        no_samples_in(kind);
    }
    judge_yes("the lowest sample of binary", zl_write_row(1, 1, 2, ZL_BINARY, ZL_EDITION_2013, 2, lowest, 3, out, BYTES), lowest_row, 12, 0);
    judge_no("-32768 in binary", zl_write_row(1, 1, 2, ZL_BINARY, ZL_EDITION_2013, 2, below, 3, out, BYTES), ZL_REFUSED_MISFIT, 2, 3);
    judge_yes("-32768 in text", zl_write_row(1, 1, 1, ZL_ASCII, ZL_EDITION_2013, 1, below, 3, out, BYTES), low_text, 14, 0);
    judge_no("-32768 to binary", zl_change(1, 1, 1, ZL_ASCII, ZL_EDITION_2013, bytes_of(low_text), 14, ZL_BINARY, out, BYTES), ZL_REFUSED_MISFIT, 1, 3);
    judge_yes("an empty sample", check_line(ZL_EDITION_2013, "1,0,,0\r\n"), NULL, 0, 0);
    judge_no("a sample of a space", check_line(ZL_EDITION_2013, "1,0, ,0\r\n"), ZL_REFUSED_TEXT_ROW, 1, 3);
    judge_no("-2147483648 in text", check_line(ZL_EDITION_2013, "1,0,-2147483648,0\r\n"), ZL_REFUSED_TEXT_ROW, 1, 3);
    judge_no("an empty time", check_line(ZL_EDITION_2013, "1,,,0\r\n"), ZL_REFUSED_TEXT_ROW, 1, 2);
    judge_no("an empty status", check_line(ZL_EDITION_2013, "1,0,,\r\n"), ZL_REFUSED_TEXT_ROW, 1, 4);
}

/* What a configuration of 1999 shows is what one of 2013 shows, but for the edition and for the five places that are absent. */
static void older_shown(void)
{
    const uint8_t *cfg = bytes_of(older_configuration);
    const size_t length = sizeof older_configuration - 1;
    int64_t newer[ZL_CONFIG_PLACES];
    zl_config(bytes_of(configuration), sizeof configuration - 1, newer, ZL_CONFIG_PLACES);
    for (size_t cut = 0; cut <= 2; cut += 2) {
        zl_answer answer = zl_config(cfg, length - cut, shown, PLACES);
        int same = memcmp(shown, newer, ZL_SHOWN_TIME_CODE * sizeof *shown) == 0, absent = 1;
        for (int k = ZL_SHOWN_TIME_CODE; k <= ZL_SHOWN_LEAP_CODE; k++)
            absent = absent && shown[k] == ZL_NONE;
        judge("what a configuration of 1999 shows", same && absent && shown[ZL_SHOWN_EDITION] == ZL_EDITION_1999 && untouched(0, ZL_CONFIG_PLACES));
        judge_yes("a configuration of 1999", answer, NULL, 0, 0);
    }
    judge_no("34 places", zl_config(cfg, length, shown, 34), ZL_REFUSED_NO_ROOM, 0, 0);
    judge_no("34 places for one of 2013", zl_config(bytes_of(configuration), sizeof configuration - 1, shown, 34), ZL_REFUSED_NO_ROOM, 0, 0);
}

static void older_configurations(void)
{
    const uint8_t *cfg = bytes_of(older_configuration), *newer = bytes_of(configuration);
    const uint32_t length = sizeof older_configuration - 1, binary_length = sizeof older_binary_configuration - 1;
    older_shown();
    judge_no("1999 without its last LF", zl_config(cfg, length - 1, shown, PLACES), ZL_REFUSED_BYTE, 11, 0);
    judge_no("1999 cut after the kind", zl_config(cfg, length - 3, shown, PLACES), ZL_REFUSED_EARLY_END, 11, 0);
    judge_no("1999 with codes", zl_config(bytes_of(older_with_codes), sizeof older_with_codes - 1, shown, PLACES), ZL_REFUSED_BYTES_AFTER, 12, 0);
    judge_no("2013 without codes", zl_config(newer, sizeof configuration - 11, shown, PLACES), ZL_REFUSED_EARLY_END, 12, 0);
    judge_no("1991", zl_config(bytes_of(oldest_configuration), sizeof oldest_configuration - 1, shown, PLACES), ZL_REFUSED_YEAR, 1, 3);
    judge_no("1999 of binary32", zl_config(bytes_of(older_binary32), sizeof older_binary32 - 1, shown, PLACES), ZL_REFUSED_VALUE, 10, 1);
    judge_yes("1999 to binary", zl_write_config(cfg, length, ZL_BINARY, out, BYTES), older_binary_configuration, binary_length, 0);
    judge_yes("1999 to text", zl_write_config(cfg, length - 2, ZL_ASCII, out, length), older_configuration, length, 0);
    judge_yes("1999 with spaces to binary", zl_write_config(bytes_of(older_spaced), sizeof older_spaced - 1, ZL_BINARY, out, BYTES), older_binary_configuration, binary_length, 0);
    judge_no("1999 to binary32", zl_write_config(cfg, length, ZL_BINARY32, out, BYTES), ZL_REFUSED_LAYOUT, 0, 0);
    judge_no("1999 to binary32 with no room", zl_write_config(cfg, length, ZL_BINARY32, NULL, 0), ZL_REFUSED_LAYOUT, 0, 0);
    judge_no("1999 to no kind", zl_write_config(cfg, length, 3, out, BYTES), ZL_REFUSED_LAYOUT, 0, 0);
    judge_no("1999 cut short to binary32", zl_write_config(cfg, length - 5, ZL_BINARY32, out, BYTES), ZL_REFUSED_EARLY_END, 10, 0);
}

/* The recording's configuration of an edition with these two date lines and this word of its kind, and its length. */
static char dated[BYTES];

static size_t date(uint32_t edition, const char *first_sample, const char *trigger, const char *word)
{
    const char *end = edition == ZL_EDITION_2013 ? END : "\r\n1";
    int length = snprintf(dated, sizeof dated, "Bench 2,R7,%u\r\n2,1A,1D\r\n" CHANNELS "%s\r\n%s\r\n%s%s\r\n", (unsigned)edition, first_sample, trigger, word, end);
    return (size_t)length;
}

static zl_answer show_dated(uint32_t edition, const char *first_sample, const char *trigger)
{
    size_t length = date(edition, first_sample, trigger, "ASCII");
    return zl_config(bytes_of(dated), length, shown, PLACES);
}

/* Lines that say that there is no date. */
static const char *const no_dates[] = {"00/00/0000,00:00:00.000000", "00/00/0000,00:00:00.0000000", "00/00/0000,00:00:00.00000000", "00/00/0000,00:00:00.000000000"};

/* Whether so many places from this one on are ZL_NONE, if they should be, and else those of another configuration. */
static int none_or(int none, const int64_t *other, int place, int count)
{
    int right = 1;
    for (int k = place; k < place + count; k++)
        right = right && shown[k] == (none ? ZL_NONE : other[k]);
    return right;
}

/* What is shown is what the recording's configuration shows, but for a moment whose date is none, and for the pre-trigger time where either is. */
static void dates_shown(uint32_t edition, const char *first_sample, const char *trigger)
{
    int64_t other[ZL_CONFIG_PLACES];
    int no_first = first_sample != NULL, no_trigger = trigger != NULL;
    show_dated(edition, FIRST_SAMPLE, TRIGGER);
    memcpy(other, shown, sizeof other);
    fill();
    zl_answer answer = show_dated(edition, no_first ? first_sample : FIRST_SAMPLE, no_trigger ? trigger : TRIGGER);
    int counts = none_or(0, other, 0, ZL_SHOWN_FIRST_SAMPLE), rest = none_or(0, other, ZL_SHOWN_KIND, ZL_CONFIG_PLACES - ZL_SHOWN_KIND);
    int moments = none_or(no_first, other, ZL_SHOWN_FIRST_SAMPLE, ZL_MOMENT_PLACES) && none_or(no_trigger, other, ZL_SHOWN_TRIGGER, ZL_MOMENT_PLACES);
    int span = none_or(no_first || no_trigger, other, ZL_SHOWN_PRE_TRIGGER_SECONDS, 2);
    judge("what a configuration with no date shows", counts && moments && span && rest && untouched(0, ZL_CONFIG_PLACES));
    judge_yes("a configuration with no date", answer, NULL, 0, 0);
}

/* A date line that is refused, as the first sample's, at line 8, and as the trigger's, at line 9, whether the other has a date or none. */
static void no_such_date(uint32_t edition, const char *line, uint32_t number, uint32_t field)
{
    judge_no("a first sample", show_dated(edition, line, TRIGGER), number, 8, field);
    judge_no("a first sample and no trigger", show_dated(edition, line, no_dates[0]), number, 8, field);
    judge_no("a trigger", show_dated(edition, FIRST_SAMPLE, line), number, 9, field);
    judge_no("a trigger and no first sample", show_dated(edition, no_dates[0], line), number, 9, field);
    judge_no("two bad dates", show_dated(edition, line, line), number, 8, field);
}

/* A date line that has no date is written as it stands, with as many zeros. */
static void dates_written(uint32_t edition, const char *first_sample, const char *trigger)
{
    char binary[BYTES];
    size_t binary_length = date(edition, first_sample, trigger, "binary");
    memcpy(binary, dated, sizeof binary);
    size_t length = date(edition, first_sample, trigger, "ASCII");
    judge_yes("no date to binary", zl_write_config(bytes_of(dated), length, ZL_BINARY, out, BYTES), binary, (uint32_t)binary_length, 0);
    judge_yes("no date to text", zl_write_config(bytes_of(binary), binary_length, ZL_ASCII, out, BYTES), dated, (uint32_t)length, 0);
}

static void dates_of(uint32_t edition)
{
    static const char *const values[] = {"00/00/2024,00:00:00.000000", "00/01/2024,00:00:00.000000", "01/00/2024,00:00:00.000000", "01/01/0000,00:00:00.000000", "00/00/0001,00:00:00.000000",
        "00/00/0000,09:15:00.001000", "00/00/0000,00:00:00.000001", "00/00/0000,00:00:00.000000001", "00/00/0000,01:00:00.000000", "00/00/0000,24:00:00.000000", "00/00/0000,00:00:00.00000",
        "00/00/0000,00:00:00.0000000000", "00/00/0000,00:00:00", "00/00/0000, 00:00:00.000000", "00/00/0000,00:00:00.000000 ", "00/00/0000,::.", "00/00/0000,x", "00/00/0000,"};
    static const char *const forms[] = {"0/0/0000,00:00:00.000000", "00/00/000,00:00:00.000000", " 00/00/0000,00:00:00.000000", "//,::.", "//,00:00:00.000000", ",00:00:00.000000", ","};
    static const char *const counts[] = {"00/00/0000", "", "00/00/0000,00:00:00.000000,", "00/00/0000,00:00:00,000000"};
    dates_shown(edition, NULL, NULL);
    for (size_t k = 0; k < sizeof no_dates / sizeof no_dates[0]; k++) {
        dates_shown(edition, no_dates[k], NULL);
        dates_shown(edition, NULL, no_dates[k]);
        dates_shown(edition, no_dates[k], no_dates[3 - k]);
        dates_written(edition, no_dates[k], TRIGGER);
        dates_written(edition, FIRST_SAMPLE, no_dates[k]);
        dates_written(edition, no_dates[k], no_dates[3 - k]);
    }
    for (size_t k = 0; k < sizeof values / sizeof values[0]; k++)
        no_such_date(edition, values[k], ZL_REFUSED_VALUE, 1);
    for (size_t k = 0; k < sizeof forms / sizeof forms[0]; k++)
        no_such_date(edition, forms[k], ZL_REFUSED_FORM, 1);
    for (size_t k = 0; k < sizeof counts / sizeof counts[0]; k++)
        no_such_date(edition, counts[k], ZL_REFUSED_FIELD_COUNT, 0);
    no_such_date(edition, "03/02/2024,00:00:00.00000", ZL_REFUSED_FORM, 2);
}

static void dates(void)
{
    dates_of(ZL_EDITION_2013);
    dates_of(ZL_EDITION_1999);
    zl_answer answer = show_dated(ZL_EDITION_2013, "03/02/2024,00:00:00.000000", "03/02/2024,00:00:00.000000000");
    int midnight = shown[ZL_SHOWN_TRIGGER] == 2024 && shown[ZL_SHOWN_TRIGGER + ZL_MOMENT_HOUR] == 0 && shown[ZL_SHOWN_TRIGGER + ZL_MOMENT_NANOSECOND] == 0;
    judge("what midnight shows", midnight && shown[ZL_SHOWN_PRE_TRIGGER_SECONDS] == 0 && shown[ZL_SHOWN_PRE_TRIGGER_NANOSECONDS] == 0);
    judge_yes("midnight", answer, NULL, 0, 0);
    date(ZL_EDITION_2013, no_dates[0], no_dates[0], "ASCII");
    judge_no("no date and a place too few", zl_config(bytes_of(dated), strlen(dated), shown, ZL_CONFIG_PLACES - 1), ZL_REFUSED_NO_ROOM, 0, 0);
}

/* A number that is no edition's, or a kind that the edition lacks, is told by every call before it looks at anything else. */
static void no_layout(uint32_t kind, uint32_t edition)
{
    static const int64_t row[] = {0, 0, 0};
    judge_no("a check in no layout", zl_check(1, 1, 2, kind, edition, NULL, 0), ZL_REFUSED_LAYOUT, 0, 0);
    judge_no("a row in no layout", zl_row(1, 1, 2, kind, edition, NULL, 0, 3, shown, PLACES), ZL_REFUSED_LAYOUT, 0, 0);
    judge_no("a row written in no layout", zl_write_row(1, 1, 2, kind, edition, 1, row, 3, out, BYTES), ZL_REFUSED_LAYOUT, 0, 0);
    judge_no("the length in no layout", zl_length(1, 1, 2, kind, edition, NULL, 0, ZL_ASCII), ZL_REFUSED_LAYOUT, 0, 0);
    judge_no("a change in no layout", zl_change(1, 1, 2, kind, edition, NULL, 0, ZL_ASCII, out, BYTES), ZL_REFUSED_LAYOUT, 0, 0);
}

static void editions(void)
{
    static const uint32_t others[] = {0, 1, 99, 1991, 1998, 2000, 2012, 2014, UINT32_MAX};
    const uint8_t *text = bytes_of(text_file);
    for (size_t k = 0; k < sizeof others / sizeof others[0]; k++)
        no_layout(ZL_ASCII, others[k]);
    no_layout(ZL_BINARY32, ZL_EDITION_1999);
    no_layout(3, ZL_EDITION_1999);
    judge_yes("a text of 1999", zl_check(1, 1, 2, ZL_ASCII, ZL_EDITION_1999, text, TEXT_LENGTH), NULL, 0, 0);
    judge_yes("the length in 1999", zl_length(1, 1, 2, ZL_ASCII, ZL_EDITION_1999, text, TEXT_LENGTH, ZL_BINARY), NULL, 24, 0);
    judge_yes("text to binary in 1999", zl_change(1, 1, 2, ZL_ASCII, ZL_EDITION_1999, text, TEXT_LENGTH, ZL_BINARY, out, BYTES), binary_file, 24, 0);
    judge_yes("binary to text in 1999", zl_change(1, 1, 2, ZL_BINARY, ZL_EDITION_1999, binary_file, 24, ZL_ASCII, out, 27), text_file, 27, 0);
    judge_no("the length in binary32 of 1999", zl_length(1, 1, 2, ZL_ASCII, ZL_EDITION_1999, NULL, 0, ZL_BINARY32), ZL_REFUSED_LAYOUT, 0, 0);
    judge_no("text to binary32 in 1999", zl_change(1, 1, 2, ZL_ASCII, ZL_EDITION_1999, text, TEXT_LENGTH, ZL_BINARY32, out, BYTES), ZL_REFUSED_LAYOUT, 0, 0);
    judge_no("binary to binary32 in 1999", zl_change(1, 1, 2, ZL_BINARY, ZL_EDITION_1999, binary_file, 24, ZL_BINARY32, out, BYTES), ZL_REFUSED_LAYOUT, 0, 0);
}

/* In a text of 1999 the number 99999, however it is written, is a missing sample; in one of 2013 it is a number. */
static void marked(const char *line)
{
    static const uint8_t binary[] = {1, 0, 0, 0, 0, 0, 0, 0, 0, 0x80, 0, 0};
    static const char plain[] = "1,0,99999,0\r\n\x1A\r\n";
    const uint8_t *data = bytes_of(line);
    size_t length = strlen(line);
    zl_answer answer = zl_row(1, 1, 1, ZL_ASCII, ZL_EDITION_1999, data, length, 1, shown, PLACES);
    judge("what 99999 is in 1999", memcmp(shown, missing_row, sizeof missing_row) == 0 && untouched(0, 3));
    judge_yes("99999 in 1999", answer, NULL, 0, 0);
    zl_row(1, 1, 1, ZL_ASCII, ZL_EDITION_2013, data, length, 1, shown, PLACES);
    judge("what 99999 is in 2013", shown[ZL_ROW_SAMPLES] == 99999);
    judge_yes("99999 to text", zl_change(1, 1, 1, ZL_ASCII, ZL_EDITION_1999, data, length, ZL_ASCII, out, BYTES), plain, sizeof plain - 1, 0);
    judge_yes("99999 to binary", zl_change(1, 1, 1, ZL_ASCII, ZL_EDITION_1999, data, length, ZL_BINARY, out, BYTES), binary, sizeof binary, 0);
    judge_yes("8000 hex to text in 1999", zl_change(1, 1, 1, ZL_BINARY, ZL_EDITION_1999, binary, sizeof binary, ZL_ASCII, out, BYTES), plain, sizeof plain - 1, 0);
}

/* A row of time 5 and status 1 with this sample, written as a text of 1999. */
static zl_answer write_older(int64_t sample)
{
    int64_t row[] = {5, 0, 1};
    row[ZL_ROW_SAMPLES] = sample;
    return zl_write_row(1, 1, 1, ZL_ASCII, ZL_EDITION_1999, 1, row, 3, out, BYTES);
}

/* The sample of a row of binary in 1999, whose bytes are these two. */
static int64_t older_sample(uint8_t low, uint8_t high)
{
    uint8_t data[] = {1, 0, 0, 0, 0, 0, 0, 0, 0, 0, 0, 0};
    data[8] = low, data[9] = high;
    zl_row(1, 1, 1, ZL_BINARY, ZL_EDITION_1999, data, sizeof data, 1, shown, PLACES);
    return shown[ZL_ROW_SAMPLES];
}

static void older_samples(void)
{
    static const char *const bad[] = {"1,0,,0\r\n", "1,0, ,0\r\n", "1,0,100000,0\r\n", "1,0,-100000,0\r\n", "1,0,-2147483647,0\r\n"};
    static const int64_t misfits[] = {99999, 100000, -100000, INT32_MIN, ZL_NONE + 1};
    static const char high[] = "1,0,32768,0\r\n", low[] = "1,0,-32768,0\r\n";
    marked("1,0,99999,0\r\n");
    marked("1,0,+99999,0\r\n");
    marked("1,0,  99999,0\r\n");
    marked("1,0,0000000099999,0\r\n");
    judge_yes("99998 in 1999", check_line(ZL_EDITION_1999, "1,0,99998,0\r\n"), NULL, 0, 0);
    judge_yes("-99999 in 1999", check_line(ZL_EDITION_1999, "1,0,-99999,0\r\n"), NULL, 0, 0);
    for (size_t k = 0; k < sizeof bad / sizeof bad[0]; k++)
        judge_no("a bad sample of 1999", check_line(ZL_EDITION_1999, bad[k]), ZL_REFUSED_TEXT_ROW, 1, 3);
    judge_yes("a missing sample written in 1999", write_older(ZL_NONE), "1,5,99999,1\r\n", 13, 0);
    judge_yes("99998 written in 1999", write_older(99998), "1,5,99998,1\r\n", 13, 0);
    judge_yes("-99999 written in 1999", write_older(-99999), "1,5,-99999,1\r\n", 14, 0);
    for (size_t k = 0; k < sizeof misfits / sizeof misfits[0]; k++)
        judge_no("a misfit in 1999", write_older(misfits[k]), ZL_REFUSED_MISFIT, 1, 3);
    judge("8000 hex in 1999", zl_is_missing(older_sample(0, 0x80)));
    judge("8001 hex in 1999", older_sample(1, 0x80) == -32767);
    judge("7FFF hex in 1999", older_sample(0xFF, 0x7F) == 32767);
    judge_no("32768 to binary in 1999", zl_change(1, 1, 1, ZL_ASCII, ZL_EDITION_1999, bytes_of(high), sizeof high - 1, ZL_BINARY, out, BYTES), ZL_REFUSED_MISFIT, 1, 3);
    judge_no("-32768 to binary in 1999", zl_change(1, 1, 1, ZL_ASCII, ZL_EDITION_1999, bytes_of(low), sizeof low - 1, ZL_BINARY, out, BYTES), ZL_REFUSED_MISFIT, 1, 3);
}

/* What is shown becomes a layout number by number, and each form hands its arguments on: no two of them can be exchanged unseen. */
static void layouts(void)
{
    static const char text[] = "1,5,-3,300,1\r\n\x1A\r\n";
    static const uint8_t binary32[] = {1, 0, 0, 0, 5, 0, 0, 0, 0xFD, 0xFF, 0xFF, 0xFF, 0x2C, 1, 0, 0, 1, 0};
    static const int64_t row[] = {5, -3, 300, 1};
    const uint8_t *data = bytes_of(text);
    size_t length = sizeof text - 1;
    for (int k = 0; k < PLACES; k++)
        shown[k] = k;
    zl_layout layout = zl_layout_of(shown);
    judge("a layout", layout.a == ZL_SHOWN_ANALOGS && layout.d == ZL_SHOWN_STATUSES && layout.rows == ZL_SHOWN_ROWS && layout.kind == ZL_SHOWN_KIND && layout.edition == ZL_SHOWN_EDITION);
    layout.a = 2, layout.d = 1, layout.rows = 1, layout.kind = ZL_ASCII, layout.edition = ZL_EDITION_2013;
    judge_yes("a check in a layout", zl_check_in(layout, data, length), NULL, 0, 0);
    judge_no("a byte too few in a layout", zl_check_in(layout, data, length - 1), ZL_REFUSED_FILE_LENGTH, 2, 0);
    zl_answer answer = zl_row_in(layout, data, length, 1, shown, PLACES);
    judge("what a row in a layout shows", memcmp(shown, row, sizeof row) == 0 && untouched(0, 4));
    judge_yes("a row in a layout", answer, NULL, 0, 0);
    judge_no("row 2 in a layout", zl_row_in(layout, data, length, 2, shown, PLACES), ZL_REFUSED_NO_SUCH_ROW, 0, 0);
    judge_no("three places in a layout", zl_row_in(layout, data, length, 1, shown, 3), ZL_REFUSED_NO_ROOM, 0, 0);
    judge_yes("a row written in a layout", zl_write_row_in(layout, 1, row, 4, out, 14), text, 14, 0);
    judge_no("a row of three places in a layout", zl_write_row_in(layout, 1, row, 3, out, BYTES), ZL_REFUSED_LAYOUT, 0, 0);
    judge_no("13 bytes in a layout", zl_write_row_in(layout, 1, row, 4, out, 13), ZL_REFUSED_NO_ROOM, 0, 0);
    judge_yes("the length in a layout", zl_length_in(layout, data, length, ZL_BINARY32), NULL, 18, 0);
    judge_yes("a change in a layout", zl_change_in(layout, data, length, ZL_BINARY32, out, 18), binary32, 18, 0);
    judge_no("17 bytes in a layout", zl_change_in(layout, data, length, ZL_BINARY32, out, 17), ZL_REFUSED_NO_ROOM, 0, 0);
}

/* Each form hands the edition on: in 1999 a missing sample is 99999, and binary32 is no kind; in an edition of 0 nothing is. */
static void layouts_of_editions(void)
{
    static const char text[] = "1,5,99999,300,1\r\n\x1A\r\n";
    static const uint8_t binary[] = {1, 0, 0, 0, 5, 0, 0, 0, 0, 0x80, 0x2C, 1, 1, 0};
    static const int64_t row[] = {5, ZL_NONE, 300, 1};
    const uint8_t *data = bytes_of(text);
    const size_t length = sizeof text - 1;
    zl_layout layout = {2, 1, 1, ZL_ASCII, ZL_EDITION_1999};
    judge_yes("a check in 1999", zl_check_in(layout, data, length), NULL, 0, 0);
    zl_answer answer = zl_row_in(layout, data, length, 1, shown, PLACES);
    judge("what a row in 1999 shows", memcmp(shown, row, sizeof row) == 0 && untouched(0, 4));
    judge_yes("a row in 1999", answer, NULL, 0, 0);
    judge_yes("a row written in 1999", zl_write_row_in(layout, 1, row, 4, out, BYTES), text, 17, 0);
    judge_yes("the length in a layout of 1999", zl_length_in(layout, data, length, ZL_BINARY), NULL, 14, 0);
    judge_yes("a change in 1999", zl_change_in(layout, data, length, ZL_BINARY, out, BYTES), binary, 14, 0);
    judge_no("the length to binary32 in a layout of 1999", zl_length_in(layout, data, length, ZL_BINARY32), ZL_REFUSED_LAYOUT, 0, 0);
    judge_no("a change to binary32 in 1999", zl_change_in(layout, data, length, ZL_BINARY32, out, BYTES), ZL_REFUSED_LAYOUT, 0, 0);
    layout.edition = 0;
    judge_no("a check in no edition", zl_check_in(layout, data, length), ZL_REFUSED_LAYOUT, 0, 0);
    judge_no("a row in no edition", zl_row_in(layout, data, length, 1, shown, PLACES), ZL_REFUSED_LAYOUT, 0, 0);
    judge_no("a row written in no edition", zl_write_row_in(layout, 1, row, 4, out, BYTES), ZL_REFUSED_LAYOUT, 0, 0);
    judge_no("the length in no edition", zl_length_in(layout, data, length, ZL_BINARY), ZL_REFUSED_LAYOUT, 0, 0);
    judge_no("a change in no edition", zl_change_in(layout, data, length, ZL_BINARY, out, BYTES), ZL_REFUSED_LAYOUT, 0, 0);
}

/* Whether the constant text of a number is what zl_reason wrote. */
static int same_text(uint32_t number, zl_answer answer)
{
    const char *text = zl_reason_text(number);
    return strlen(text) == answer.length && memcmp(text, out, answer.length) == 0;
}

static void reasons(void)
{
    for (uint32_t number = 0; number <= 18; number++) {
        zl_answer answer = zl_reason(number, out, ZL_MOST_REASON_BYTES);
        int same = same_text(number, answer);
        if (number == 0 || number == 18)
            judge_no("a number with no meaning", answer, ZL_REFUSED_LAYOUT, 0, 0);
        else
            judge("a meaning", answer.number == ZL_YES && answer.length > 0 && untouched(answer.length, 0));
        judge("a constant text", same);
    }
    judge("the text of no number", zl_reason_text(UINT32_MAX)[0] == 0);
    judge_no("a meaning with no room", zl_reason(ZL_REFUSED_NO_ROOM, NULL, 0), ZL_REFUSED_NO_ROOM, 0, 0);
}

int main(void)
{
    fill();
    configurations();
    written_configurations();
    rows();
    files();
    missing_samples();
    older_configurations();
    dates();
    editions();
    older_samples();
    layouts();
    layouts_of_editions();
    reasons();
    printf("%d answers, %d differ\n", held, differ);
    return differ == 0 ? 0 : 1;
}
