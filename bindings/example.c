/* How a C program asks the library: the day of a date and the date of a day, a refusal, a year, an
 * eclipse and its hours, a month's moons and a record. */
#include "sieveflicker.h"

#include <inttypes.h>
#include <stdio.h>
#include <stdlib.h>

static void expect_answer(const char *asked, uint64_t refusal)
{
    if (refusal != 0) {
        fprintf(stderr, "%s: refusal %" PRIu64 "\n", asked, refusal);
        exit(EXIT_FAILURE);
    }
}

static void show_date(uint64_t day)
{
    uint64_t date = sf_date(SF_SENMYO, day);
    expect_answer("the date of a day", SF_REFUSED(date) ? date : 0);
    printf("day %" PRIu64 " is Senmyo %" PRIu64 ", %smonth %" PRIu64 ", day %" PRIu64 "\n", day,
           date / 10000 % 10000, date >= 100000000 ? "leap " : "", date / 100 % 100, date % 100);
}

static void show_days_and_dates(void)
{
    uint64_t day = sf_day(SF_SENMYO, 1522, 1, 0, 1);
    expect_answer("the day of a date", SF_REFUSED(day) ? day : 0);
    printf("Senmyo 1522, month 1, day 1 is day %" PRIu64 "\n", day);
    show_date(day + 30);

    uint64_t day_of_leap_month = sf_day(SF_SENMYO, 1523, 3, 1, 1);
    expect_answer("a day of a leap month", SF_REFUSED(day_of_leap_month) ? day_of_leap_month : 0);
    printf("Senmyo 1523, leap month 3, day 1 is day %" PRIu64 "\n", day_of_leap_month);
    show_date(day_of_leap_month + 28);
}

static void show_refusal(void)
{
    if (sf_day(SF_SENMYO, 1522, 3, 1, 1) == SF_NO_SUCH_MONTH)
        printf("Senmyo 1522, leap month 3, day 1: refusal %d: the year has no such month\n", SF_NO_SUCH_MONTH);
}

static void show_year(void)
{
    uint32_t year[SF_YEAR_NUMBERS];
    expect_answer("a year", sf_year(SF_GENKA, 643, year, SF_YEAR_NUMBERS));
    printf("Genka 643 has %" PRIu32 " days in %" PRIu32 " months\n", year[0], year[2]);
    for (uint32_t place = 0; place < year[2]; place++) {
        const uint32_t *month = &year[3 + 4 * place];
        printf("%smonth %" PRIu32 " has %" PRIu32 " days from day %" PRIu32 "\n",
               month[1] ? "leap " : "", month[0], month[2], month[3]);
    }
}

static void show_eclipse(void)
{
    uint32_t moon[SF_ECLIPSE_NUMBERS];
    expect_answer("an eclipse", sf_eclipse(SF_SENMYO, 1522, 2, 0, moon, SF_ECLIPSE_NUMBERS));
    printf("the full moon of Senmyo 1522, month 2 is on day %" PRIu32 " at %" PRIu32 " fen\n", moon[0], moon[1]);
    if (moon[4] == 2)
        printf("eclipsed by %" PRIu32 " parts and %" PRIu32 ", %s\n", moon[5], moon[6], moon[7] ? "strong" : "weak");
}

static void show_time(const char *name, const uint32_t *time, const char *after)
{
    printf("%s on day %" PRIu32 ", fen %" PRIu32 ", ke %" PRIu32 "%s", name, time[0], time[1], time[2], after);
}

static void show_hours(void)
{
    uint32_t hours[SF_HOURS_NUMBERS];
    expect_answer("an eclipse's hours", sf_hours(SF_SENMYO, 1522, 2, 0, hours, SF_HOURS_NUMBERS));
    printf("for %" PRIu32 " fen, which is %" PRIu32 " ke and %" PRIu32 " fen\n", hours[0], hours[1], hours[2]);
    show_time("start", &hours[3], "; ");
    show_time("middle", &hours[6], "; ");
    show_time("end", &hours[9], "\n");
}

static void show_moons(void)
{
    double moons[SF_MOONS_NUMBERS];
    expect_answer("a month's moons", sf_moons(SF_GENKA, 643, 5, 0, moons, SF_MOONS_NUMBERS));
    printf("the moons of Genka 643, month 5: new %.5f, full %.5f\n", moons[0], moons[1]);
}

static void show_record(void)
{
    uint8_t record[SF_RECORD_BYTES];
    expect_answer("a record written", sf_write_record(SF_SENMYO, 1522, record, SF_RECORD_BYTES));
    printf("the record of Senmyo 1522:");
    for (size_t place = 0; place < SF_RECORD_BYTES; place++)
        printf(" %02X", record[place]);
    printf("\n");

    uint32_t numbers[SF_RECORD_NUMBERS];
    expect_answer("a record read", sf_read_record(record, SF_RECORD_BYTES, numbers, SF_RECORD_NUMBERS));
    printf("it reads as year %" PRIu32 " from day %" PRIu32 "\n", numbers[1], numbers[2]);
}

int main(void)
{
    show_days_and_dates();
    show_refusal();
    show_year();
    show_eclipse();
    show_hours();
    show_moons();
    show_record();
    return EXIT_SUCCESS;
}
