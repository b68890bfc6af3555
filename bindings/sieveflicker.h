/* The proved library of the Senmyo and Genka calendars, for a program in C or C++.
 *
 * A call takes any numbers, and answers or refuses. A day is a Julian Day Number; a leap of 0 asks for an ordinary month,
 * any other for a leap one. Memory is lent as a pointer and the count of elements there: no pointer may be null, even
 * for 0 elements, and what it points to must be the caller's for the whole call. A call that is lent memory to write
 * returns 0 and writes its numbers in the first places, or returns the refusal's number and writes nothing; later
 * places keep what they hold. Nothing is kept between calls, which may be made from several threads at once.
 */
#ifndef SIEVEFLICKER_H
#define SIEVEFLICKER_H

#include <stddef.h>
#include <stdint.h>

/* Calendars: Senmyo has the years 822 to 1684, Genka the years 445 to 697. */
#define SF_SENMYO 1
#define SF_GENKA 2

/* How many numbers, dates or bytes a call writes. */
#define SF_YEAR_NUMBERS 55
#define SF_ECLIPSE_NUMBERS 8
#define SF_HOURS_NUMBERS 12
#define SF_MOONS_NUMBERS 2
#define SF_RECORD_NUMBERS 5
#define SF_RECORD_BYTES 25

/* Refusals. Where several hold, the first of 6, 7, 1, 13, 2, 3, 14, 4, 5, 8 is given. */
#define SF_NO_SUCH_CALENDAR 1
#define SF_YEAR_NOT_COVERED 2
#define SF_NO_SUCH_MONTH 3        /* not 1 to 12, or a leap month that the year lacks */
#define SF_NO_SUCH_DAY 4          /* 0, or past the month's last */
#define SF_DAY_NOT_COVERED 5      /* outside the calendar's years */
#define SF_WRONG_SIZE 6           /* too few places to write to, or a record to read that is not 25 bytes */
#define SF_WRONG_TAG_OR_LENGTH 7  /* of a field of the record */
#define SF_WRONG_FIELD 8          /* the record has a number that its year has not */
#define SF_ECLIPSE_OF_GENKA 13    /* eclipses are worked out for Senmyo only */
#define SF_NO_ECLIPSE 14          /* there are no hours: the month's full moon is not eclipsed */

/* Whether an answer of sf_day or sf_date is a refusal's number: days and dates are far above those. */
#define SF_REFUSED(answer) ((answer) < 100)

#ifdef __cplusplus
extern "C" {
#endif

/* The day of a date. Refusals 1, 2, 3, 4. */
uint64_t sf_day(uint64_t calendar, uint64_t year, uint64_t month, uint64_t leap, uint64_t day);

/* The date of a day, as year * 10000 + month * 100 + day, and 100000000 more in a leap month. Refusals 1, 5. */
uint64_t sf_date(uint64_t calendar, uint64_t day);

/* SF_YEAR_NUMBERS numbers: the year's days, the number of its leap month or 0, the count of its months; then for each of
 * 13 months in order number, leap (0 or 1), length and first day, all 0 for a thirteenth that the year lacks.
 * Refusals 6, 1, 2. */
uint8_t sf_year(uint64_t calendar, uint64_t year, uint32_t *out, size_t length);

/* SF_ECLIPSE_NUMBERS numbers of a month's full moon: its day; its fen, of the day's 8400; side of the node (0 yang, 1
 * yin); distance from the node in fen; kind of eclipse (0 none, 1 total, 2 partial); parts; remainder; strong (0 or 1).
 * Refusals 6, 1, 13, 2, 3. */
uint8_t sf_eclipse(uint64_t calendar, uint64_t year, uint64_t month, uint64_t leap, uint32_t *out, size_t length);

/* SF_HOURS_NUMBERS numbers of a month's eclipse: its length in fen, the length's whole ke (of 84 fen) and the fen over
 * those; then of its start, its middle and its end, one behind the other, the day, the fen of that day and its ke.
 * Refusals 6, 1, 13, 2, 3, 14. */
uint8_t sf_hours(uint64_t calendar, uint64_t year, uint64_t month, uint64_t leap, uint32_t *out, size_t length);

/* SF_MOONS_NUMBERS Julian dates: a month's new moon and its full moon. Refusals 6, 1, 2, 3. */
uint8_t sf_moons(uint64_t calendar, uint64_t year, uint64_t month, uint64_t leap, double *out, size_t length);

/* SF_RECORD_BYTES bytes: the year's record. Refusals 6, 1, 2. */
uint8_t sf_write_record(uint64_t calendar, uint64_t year, uint8_t *buffer, size_t length);

/* SF_RECORD_NUMBERS numbers of a record of SF_RECORD_BYTES bytes: calendar, year, first day, number of the leap month or
 * 0, and the long months, a bit for each, the lowest for the first. The two pieces of memory must not overlap.
 * Refusals 6, 7, 1, 2, 8. */
uint8_t sf_read_record(const uint8_t *bytes, size_t bytes_length, uint32_t *out, size_t out_length);

#ifdef __cplusplus
}
#endif

#endif
