/*
 * zagalume.h: a proved loader of COMTRADE recordings (IEC 60255-24:2013, and the edition of 1999; data files of the kinds
 * ASCII, binary and binary32).
 *
 * Every call is answered, whatever its numbers and whatever the lent bytes hold; there is no error but a refusal.
 * A call returns its answer by value: yes, or no with a number, which says what is wrong, and the place.
 * "No" changes no lent byte. "Yes" changes only the places or bytes that it reports.
 *
 * A sample may be missing, and is then no number. Ask before you use one; with a layout and its data file at hand:
 *
 *     int64_t row[ZL_MOST_ROW_PLACES];
 *     if (zl_row_in(layout, data, data_length, n, row, ZL_MOST_ROW_PLACES).number != ZL_YES)
 *         return;
 *     for (uint32_t k = 0; k < layout.a; k++) {
 *         int64_t place = row[ZL_ROW_SAMPLES + k];
 *         if (zl_is_missing(place))
 *             hold(k);
 *         else
 *             play(k, (int32_t)place);
 *     }
 *
 * A configuration of 1999 has no time codes, no quality and no leap code, and one of a recorder without a clock has no date.
 * Their places are then ZL_NONE, never 0: compare with ZL_NONE before you use one; with what zl_config has shown at hand:
 *
 *     if (shown[ZL_SHOWN_TRIGGER] == ZL_NONE)
 *         say("no date");
 *     if (shown[ZL_SHOWN_PRE_TRIGGER_SECONDS] == ZL_NONE)
 *         say("pre-trigger time unknown");
 *
 * What the caller owes, since nothing here can test it:
 *   - A pointer is valid for its whole length, and aligned for its type: readable where it is const, else writable.
 *     A length counts bytes of a uint8_t pointer and places of an int64_t pointer. Where the length is 0, nothing is
 *     read or written through the pointer, which may then be null.
 *   - What a call may write overlaps nothing else that is lent to the same call.
 *   - Nothing else writes to what is lent until the call returns: no other thread, and where it is a mapped file no
 *     other process either, nor does one shorten that file.
 * No call allocates, keeps anything between calls, reads a clock or touches a file: all are reentrant, and threads may
 * call at the same time as long as what one writes is lent to no other.
 *
 * What links: libzagalume.a alone, one object of some 50 KB of code and constants, with no writable data. It calls
 * memcpy and memset and nothing else: no heap, no other part of a C library, no operating system.
 *
 * Stack that a call uses, in bytes, its caller's frame included, on the largest layout (A = 96, D = 256) of every kind and
 * edition, as tools/stack measures it; on aarch64 as the older kit rattle-kit-5b compiled it:
 *
 *                     x86-64      aarch64
 *     zl_config          1056        1296
 *     zl_write_config    1344        1488
 *     zl_check            320         320
 *     zl_row             4208        2896
 *     zl_write_row       2384        2560
 *     zl_length          2064        1984
 *     zl_change          4256        3504
 *     zl_reason            16         736
 */
#ifndef ZAGALUME_H
#define ZAGALUME_H

#include <stddef.h>
#include <stdint.h>

/* The version of this header and its library. */
#define ZL_VERSION "0.5.0"

#ifdef __cplusplus
extern "C" {
#endif

/* The answer of every call. */
typedef struct zl_answer {
    uint32_t number; /* 0 for yes; for no the refusal's number */
    uint32_t at;     /* on no the line of the configuration or the row of the data file, from 1; 0 for the whole file */
    uint32_t field;  /* on no the field, from 1; 0 for the whole line or row */
    uint32_t length; /* on yes the length in bytes, where the call has one; else 0 */
} zl_answer;

/* The kinds of data file. Any other number is refused with ZL_REFUSED_LAYOUT. */
enum {
    ZL_ASCII = 0,
    ZL_BINARY = 1,
    ZL_BINARY32 = 2
};

/*
 * The editions, by their year. Any other number is refused with ZL_REFUSED_LAYOUT, and so is ZL_BINARY32 beside
 * ZL_EDITION_1999, which has the kinds ASCII and binary alone.
 */
enum {
    ZL_EDITION_2013 = 2013,
    ZL_EDITION_1999 = 1999
};

/*
 * The number of an answer, with the place of the refusal: line and field of the configuration for 1 to 9, row and field
 * of the data file for 11 to 16. In a row the number is field 1, the timestamp field 2, the samples begin at field 3 and
 * the statuses follow them. Only the first refusal is given. docs/REFUSALS.md has the usual causes and how to mend a file.
 */
enum {
    ZL_YES = 0,
    ZL_REFUSED_CONFIG_SIZE = 1,   /* the configuration has, or would have, more than 65,536 bytes; 0, 0 */
    ZL_REFUSED_EARLY_END = 2,     /* the configuration ends before or inside a line; line, 0 */
    ZL_REFUSED_BYTE = 3,          /* a byte outside 32 to 126 before the line's end; line, 0 */
    ZL_REFUSED_FIELD_COUNT = 4,   /* wrong number of fields; line, 0 */
    ZL_REFUSED_FORM = 5,          /* a field's length or form; line, field */
    ZL_REFUSED_VALUE = 6,         /* a field's number, date, kind or code is not allowed, or the edition lacks the kind; a
                                     date of zeros whose time is not 00:00:00. and 6 to 9 zeros (at the date); line, field */
    ZL_REFUSED_AGREEMENT = 7,     /* TT is not A + D (at D); a wrong index; a last row that does not rise; max below min
                                     (at max); line, field */
    ZL_REFUSED_YEAR = 8,          /* a year of four digits that is not 2013 or 1999; line, field */
    ZL_REFUSED_BYTES_AFTER = 9,   /* bytes after the last line, which in 1999 is the time multiplier's; line after it, 0 */
    ZL_REFUSED_LAYOUT = 10,       /* the layout is outside the limits, there is no such kind or edition, or the edition
                                     lacks the kind, the new kind of a change or of a written configuration too; a row to
                                     write has too few places; no such refusal; 0, 0 */
    ZL_REFUSED_FILE_LENGTH = 11,  /* wrong length of the data file; binary kinds 0, 0; ASCII row, 0 */
    ZL_REFUSED_ROW_NUMBER = 12,   /* a row's number is not the row's; row, 1 */
    ZL_REFUSED_PADDING = 13,      /* a padding bit is set; row, 0 */
    ZL_REFUSED_TEXT_ROW = 14,     /* a row or a field of a text is bad; row, field, or row, 0 for the whole row. A sample's
                                     field may be empty in 2013, where the sample is missing; in 1999 it is bad */
    ZL_REFUSED_NO_SUCH_ROW = 15,  /* there is no such row; 0, 0 */
    ZL_REFUSED_MISFIT = 16,       /* a sample does not fit the kind that is written, or a time or status of a lent row its
                                     field; row, field. A missing sample fits every kind */
    ZL_REFUSED_NO_ROOM = 17       /* what is lent to be written is too short; 0, 0 */
};

/* The limits. */
enum {
    ZL_MOST_CONFIG_BYTES = 65536,
    ZL_MOST_ANALOGS = 96,     /* A, analog channels, from 0 */
    ZL_MOST_STATUSES = 256,   /* D, status channels, from 0; A + D is at least 1 */
    ZL_MOST_RATES = 8,        /* sampling rates, from 0 */
    ZL_MOST_ROWS = 1000000,   /* rows, from 1 */
    ZL_CONFIG_PLACES = 35,    /* what zl_config shows */
    ZL_MOST_ROW_PLACES = 353, /* what zl_row shows of the largest layout: 1 + 96 + 256 */
    ZL_MOST_ROW_BYTES = 1882, /* room for any row, CR LF included */
    ZL_MOST_REASON_BYTES = 256 /* room for the meaning of any refusal */
};

/*
 * The places of what zl_config shows. A date and time takes ZL_MOMENT_PLACES, of which the ZL_MOMENT_ names are offsets.
 *   - A line of 00/00/0000 and a time of zeros says that there is no date. All seven places of that date and time are then
 *     ZL_NONE, and none of them ever is else. How many zeros the time had is not shown.
 *   - The places 26 and 27 are both ZL_NONE where the first sample, the trigger or both have no date, since the pre-trigger
 *     time is unknown there, and never else.
 *   - The places 29 to 33 are ZL_NONE where the edition is 1999, whose configurations have no lines for them, and never
 *     else.
 */
enum {
    ZL_SHOWN_ANALOGS = 0,             /* A */
    ZL_SHOWN_STATUSES = 1,            /* D */
    ZL_SHOWN_RATES = 2,               /* number of sampling rates, 0 to 8 */
    ZL_SHOWN_ROWS = 3,
    ZL_SHOWN_LAST_ROWS = 4,           /* ZL_MOST_RATES places, 0 where there is none; with 0 rates there is one */
    ZL_SHOWN_FIRST_SAMPLE = 12,       /* date and time of the first sample, or ZL_NONE seven times */
    ZL_SHOWN_TRIGGER = 19,            /* date and time of the trigger, or ZL_NONE seven times */
    ZL_SHOWN_PRE_TRIGGER_SECONDS = 26, /* trigger minus first sample: whole seconds, rounded down, or ZL_NONE */
    ZL_SHOWN_PRE_TRIGGER_NANOSECONDS = 27, /* and 0 to 999,999,999 nanoseconds, or ZL_NONE */
    ZL_SHOWN_KIND = 28,               /* ZL_ASCII, ZL_BINARY or ZL_BINARY32 */
    ZL_SHOWN_TIME_CODE = 29,          /* signed minutes, or ZL_NONE */
    ZL_SHOWN_LOCAL_IS_X = 30,         /* 1 where the local code is x, 0 where it is not, or ZL_NONE; compare it with 1, since
                                         ZL_NONE is true too */
    ZL_SHOWN_LOCAL_CODE = 31,         /* signed minutes, 0 where it is x, or ZL_NONE */
    ZL_SHOWN_QUALITY = 32,            /* the value of the hex digit: 0 to 11, or 15, or ZL_NONE */
    ZL_SHOWN_LEAP_CODE = 33,          /* 0 to 3, or ZL_NONE */
    ZL_SHOWN_EDITION = 34             /* ZL_EDITION_2013 or ZL_EDITION_1999 */
};
enum {
    ZL_MOMENT_YEAR = 0, /* 1900 to 9999, or ZL_NONE where there is no date */
    ZL_MOMENT_MONTH = 1,
    ZL_MOMENT_DAY = 2,
    ZL_MOMENT_HOUR = 3,
    ZL_MOMENT_MINUTE = 4,
    ZL_MOMENT_SECOND = 5,
    ZL_MOMENT_NANOSECOND = 6,
    ZL_MOMENT_PLACES = 7
};

/*
 * The places of a row, as zl_row shows it and zl_write_row takes it: the time, then A samples, then D statuses (0 or 1). A
 * sample is a number, or ZL_NONE where it is missing. The numbers are -32,767 to 32,767 in binary, -2,147,483,647 to
 * 2,147,483,647 in binary32 and in ASCII of 2013, and -99,999 to 99,998 in ASCII of 1999.
 */
enum {
    ZL_ROW_TIME = 0,
    ZL_ROW_SAMPLES = 1 /* the statuses begin at ZL_ROW_SAMPLES + A */
};

/*
 * The number for "there is none": the place of a missing sample, of what a configuration of 1999 has no line for, of a date
 * and time where there is no date, and of a pre-trigger time that is unknown. A time or a status of a row is never missing.
 * Compare before you narrow: ZL_NONE cut to 32 bits is 0, which is a sample, a code, a good quality and midnight. In a file
 * a missing sample is 8000 hex in binary, 80000000 hex in binary32, an empty field in ASCII of 2013 and the number 99999 in
 * ASCII of 1999. So whoever reads samples from their bytes looks for that first: taken for a number, it would be a full
 * swing that was never there.
 */
#define ZL_NONE INT64_MIN

/* 1 where the place of a sample says that it is missing, else 0. */
static inline int zl_is_missing(int64_t place)
{
    return place == ZL_NONE;
}

/*
 * Reads a configuration and shows it.
 *   Yes:    ZL_CONFIG_PLACES places of shown are written; the places 12 to 18 are ZL_NONE where the first sample has no
 *           date, 19 to 25 where the trigger has none, 26 and 27 where either has none, 29 to 33 where the edition is 1999,
 *           and no other place ever is; length is 0.
 *   No:     1; then line by line, in a line the first of 2 and 3 that is met, then 4, then the fields from the left, in
 *           each 5, 6, 8, 7; then 9; last of all 17, where shown has fewer than ZL_CONFIG_PLACES places. A date of zeros is
 *           6 at the date wherever its time is not 00:00:00. and 6 to 9 zeros; no refusal is at the time beside it.
 */
zl_answer zl_config(const uint8_t *cfg, size_t cfg_length, int64_t *shown, size_t shown_length);

/*
 * Writes a configuration for a data file of that kind: the kind's word as ASCII, binary or binary32, numbers and codes
 * without the spaces before them, every other field as it stands, the year and a date of zeros too, and CR LF on each line,
 * the last too. What is written is accepted and shows the same in all but the kind, and written again to that kind it stays
 * as it is.
 *   Yes:    length bytes of out are written, at most 5 more than cfg_length; room of ZL_MOST_CONFIG_BYTES is always enough.
 *   No:     1 to 9 as zl_config refuses the configuration; 10, where there is no such kind, or the configuration's edition
 *           lacks it; 1, where the result would have more than 65,536 bytes; last of all 17, where out is too short.
 */
zl_answer zl_write_config(const uint8_t *cfg, size_t cfg_length, uint32_t kind, uint8_t *out, size_t out_length);

/*
 * Checks a data file against its layout: a analog and d status channels, the number of rows, the kind, and the edition.
 *   Yes:    nothing is written; length is 0.
 *   No:     10; then the file. Binary kinds: 11, then row by row 12, 13. ASCII: row by row, in a row the first of 11 and
 *           14 that its scan up to CR LF meets, then 14 for the number of fields, then the fields from the left, in field 1
 *           14 and then 12, in the others 14; then 11 at row rows + 1 for what follows the last row.
 */
zl_answer zl_check(uint32_t a, uint32_t d, uint32_t rows, uint32_t kind, uint32_t edition, const uint8_t *data,
                   size_t data_length);

/*
 * Shows row n, counted from 1, of a data file that is fine as a whole.
 * Each call checks the whole file, so that all rows one by one take time that grows with the square of their number:
 * 28 s for 10,000 rows of ASCII, 32 samples and 32 statuses each. For all rows, change the file to ZL_BINARY32 once, which
 * every sample fits, and read each row from its place, a sample of 80000000 hex as missing, as examples/c/all_rows.c does:
 * 0.05 s for the same file, printing included (processor time on x86-64). The edition of 1999 lacks that kind, and there
 * every sample fits ZL_ASCII: change the file to that once, and read its plain lines one after the other, a sample of 99999
 * as missing, as the same example does.
 *   Yes:    1 + a + d places of shown are written, the time, the samples and the statuses; a sample is a number in the
 *           range of the kind and edition, or ZL_NONE where it is missing, and no other place is ZL_NONE; length is 0.
 *   No:     10; 15; then the file, as zl_check; last of all 17, where shown has fewer places.
 */
zl_answer zl_row(uint32_t a, uint32_t d, uint32_t rows, uint32_t kind, uint32_t edition, const uint8_t *data,
                 size_t data_length, uint32_t n, int64_t *shown, size_t shown_length);

/*
 * Writes a row, in the places of zl_row, as row n of a data file of that layout. No end mark is added. Places of the row
 * past 1 + a + d are not read.
 *   Yes:    length bytes of out are written; a row of the binary kinds has 8 + w a + 2 ((d + 15) / 16) of them, w being 2
 *           for binary and 4 for binary32; a row of ASCII is in the plain form, with its CR LF. A sample of ZL_NONE is
 *           written as missing.
 *   No:     10, also where the row has fewer than 1 + a + d places; 15; 16 at row n and the first field from the left that
 *           does not fit: a time outside 32 bits unsigned, a sample that is neither ZL_NONE nor in the range of the kind and
 *           edition (so -2,147,483,648 in every kind, -32,768 in binary, and 99,999 in ASCII of 1999), a status that is not
 *           0 or 1; 17, where out is too short.
 */
zl_answer zl_write_row(uint32_t a, uint32_t d, uint32_t rows, uint32_t kind, uint32_t edition, uint32_t n,
                       const int64_t *row, size_t row_length, uint8_t *out, size_t out_length);

/*
 * How many bytes the data file has once it is changed to new_kind.
 *   Yes:    length is that number; nothing is written.
 *   No:     as zl_change, but never 17.
 */
zl_answer zl_length(uint32_t a, uint32_t d, uint32_t rows, uint32_t kind, uint32_t edition, const uint8_t *data,
                    size_t data_length, uint32_t new_kind);

/*
 * Changes a data file from its kind to new_kind, which may be the same: a text then comes out in its plain form. The edition
 * stays as it is. A missing sample fits every kind and stays missing.
 *   Yes:    length bytes of out are written, the new file; a text ends with the end mark, 1A 0D 0A hex.
 *   No:     10, of the layout and of new_kind, which the edition must have; then the file, as zl_check; 16 at the first row
 *           and field whose sample is a number that does not fit new_kind; last of all 17, where out is too short.
 */
zl_answer zl_change(uint32_t a, uint32_t d, uint32_t rows, uint32_t kind, uint32_t edition, const uint8_t *data,
                    size_t data_length, uint32_t new_kind, uint8_t *out, size_t out_length);

/*
 * The meaning of a refusal's number, as text to show: characters 32 to 126, with no 0 at the end.
 *   Yes:    length bytes of out are written.
 *   No:     10 for a number that has no meaning (0 too); 17, where out is too short.
 */
zl_answer zl_reason(uint32_t number, uint8_t *out, size_t out_length);

/* The same meaning as a constant C string; an empty one where the number has none (0 too). tests/calls.c holds it to zl_reason. */
static inline const char *zl_reason_text(uint32_t number)
{
    switch (number) {
    case ZL_REFUSED_CONFIG_SIZE: return "a configuration, read or to be written, of more than 65,536 bytes";
    case ZL_REFUSED_EARLY_END: return "the file ends before or inside a line";
    case ZL_REFUSED_BYTE: return "a byte outside 32 to 126 before the end of the line";
    case ZL_REFUSED_FIELD_COUNT: return "wrong number of fields";
    case ZL_REFUSED_FORM: return "wrong length or form of a field";
    case ZL_REFUSED_VALUE: return "a number, date, kind or code that is not allowed";
    case ZL_REFUSED_AGREEMENT: return "a total, index, last row or maximum that does not agree";
    case ZL_REFUSED_YEAR: return "an edition that is not 2013 or 1999";
    case ZL_REFUSED_BYTES_AFTER: return "bytes after the last line";
    case ZL_REFUSED_LAYOUT: return "sizes, kind or edition not allowed";
    case ZL_REFUSED_FILE_LENGTH: return "wrong length of the file";
    case ZL_REFUSED_ROW_NUMBER: return "a row number that is not the row's";
    case ZL_REFUSED_PADDING: return "a padding bit is set";
    case ZL_REFUSED_TEXT_ROW: return "a text row or field is bad";
    case ZL_REFUSED_NO_SUCH_ROW: return "no such row";
    case ZL_REFUSED_MISFIT: return "a number does not fit its field";
    case ZL_REFUSED_NO_ROOM: return "no room";
    default: return "";
    }
}

/*
 * The layout as one value, and the calls that ask for a layout in this form, so that a and d can't be exchanged. A call
 * whose name ends in _in hands its numbers on to the call of that name without _in, and answers and writes as that does.
 */
typedef struct zl_layout {
    uint32_t a;       /* analog channels */
    uint32_t d;       /* status channels */
    uint32_t rows;
    uint32_t kind;    /* ZL_ASCII, ZL_BINARY or ZL_BINARY32 */
    uint32_t edition; /* ZL_EDITION_2013 or ZL_EDITION_1999; left out of an initializer it is 0, and refused with 10 */
} zl_layout;

/* The layout in the places that zl_config wrote with a yes. */
static inline zl_layout zl_layout_of(const int64_t *shown)
{
    zl_layout layout;
    layout.a = (uint32_t)shown[ZL_SHOWN_ANALOGS];
    layout.d = (uint32_t)shown[ZL_SHOWN_STATUSES];
    layout.rows = (uint32_t)shown[ZL_SHOWN_ROWS];
    layout.kind = (uint32_t)shown[ZL_SHOWN_KIND];
    layout.edition = (uint32_t)shown[ZL_SHOWN_EDITION];
    return layout;
}

static inline zl_answer zl_check_in(zl_layout layout, const uint8_t *data, size_t data_length)
{
    return zl_check(layout.a, layout.d, layout.rows, layout.kind, layout.edition, data, data_length);
}

static inline zl_answer zl_row_in(zl_layout layout, const uint8_t *data, size_t data_length, uint32_t n, int64_t *shown,
                                  size_t shown_length)
{
    return zl_row(layout.a, layout.d, layout.rows, layout.kind, layout.edition, data, data_length, n, shown, shown_length);
}

static inline zl_answer zl_write_row_in(zl_layout layout, uint32_t n, const int64_t *row, size_t row_length, uint8_t *out,
                                        size_t out_length)
{
    return zl_write_row(layout.a, layout.d, layout.rows, layout.kind, layout.edition, n, row, row_length, out, out_length);
}

static inline zl_answer zl_length_in(zl_layout layout, const uint8_t *data, size_t data_length, uint32_t new_kind)
{
    return zl_length(layout.a, layout.d, layout.rows, layout.kind, layout.edition, data, data_length, new_kind);
}

static inline zl_answer zl_change_in(zl_layout layout, const uint8_t *data, size_t data_length, uint32_t new_kind,
                                     uint8_t *out, size_t out_length)
{
    return zl_change(layout.a, layout.d, layout.rows, layout.kind, layout.edition, data, data_length, new_kind, out,
                     out_length);
}

#ifdef __cplusplus
}
#endif

#endif
