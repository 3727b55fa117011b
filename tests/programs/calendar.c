/* A month as a calendar shows it, and days between dates. */
int printf(const char *, ...);

typedef struct { int year, month, day; } date;

static int is_leap(int year)
{
    return year % 4 == 0 && (year % 100 != 0 || year % 400 == 0);
}

static int length(int year, int month)
{
    static const char days[] = { 31, 28, 31, 30, 31, 30, 31, 31, 30, 31, 30, 31 };
    return days[month - 1] + (month == 2 && is_leap(year));
}

static long number(date d)
{
    long n = d.day, y = d.year - 1;
    int month;
    n += 365 * y + y / 4 - y / 100 + y / 400;
    for (month = 1; month < d.month; month++)
        n += length(d.year, month);
    return n;
}

static void show(int year, int month)
{
    static const char *const names[] = {
        "January", "February", "March", "April", "May", "June", "July", "August", "September", "October", "November", "December"
    };
    int day, column = (number((date){ year, month, 1 }) - 1) % 7, i;
    printf("%s %d\nMo Tu We Th Fr Sa Su\n", names[month - 1], year);
    for (i = 0; i < column; i++)
        printf("   ");
    for (day = 1; day <= length(year, month); day++)
        printf("%s%d%s", day < 10 ? " " : "", day, ++column % 7 ? " " : "\n");
    printf("\n");
}

int main(void)
{
    date a = { 2000, 1, 1 }, b = { .day = 29, .month = 2, .year = 2024 };
    show(2024, 2);
    show(1999, 11);
    printf("%ld days\n", number(b) - number(a));
    return (number(b) - 1) % 7;
}
