/* `switch` that falls through, that is entered in a loop, and within another. */
int printf(const char *, ...);
int putchar(int);

static void copy(char *to, const char *from, int count)
{
    int n = (count + 7) / 8;
    switch (count % 8) {
    case 0: do { *to++ = *from++;
    case 7:      *to++ = *from++;
    case 6:      *to++ = *from++;
    case 5:      *to++ = *from++;
    case 4:      *to++ = *from++;
    case 3:      *to++ = *from++;
    case 2:      *to++ = *from++;
    case 1:      *to++ = *from++;
            } while (--n > 0);
    }
    *to = 0;
}

static int days(int month, int leap)
{
    switch (month) {
    default: return 31;
    case 2: if (leap) { case 13: return 29; } return 28;
    case 4: case 6: case 9: case 11: return 30;
    }
}

static int gifts(int day)
{
    int sum = 0;
    switch (day) {
    case 4: sum += 4;
    case 3: sum += 3;
    case 2: sum += 2;
    case 1: sum += 1;
    }
    return sum;
}

static const char *kind(long n)
{
    switch (n) {
    case -1L: return "less";
    case 0xffffffff: return "wide";
    case 1L << 40: return "huge";
    case 'A':
        switch ((unsigned char)(n + 200)) {
        case 9: return "letter";
        }
        break;
    }
    return "other";
}

int main(void)
{
    char text[32];
    int i, sum = 0;
    for (i = 1; i < 20; i += 6) {
        copy(text, "abcdefghijklmnopqrstuvwxyz", i);
        printf("%s\n", text);
    }
    for (i = 1; i <= 13; i++)
        sum += days(i, i % 3 == 2);
    for (i = 0; i < 6; i++)
        putchar('0' + gifts(i) % 10);
    putchar('\n');
    printf("%s %s %s %s %s\n", kind(-1), kind(4294967295), kind(1099511627776), kind(65), kind(2));
    while (i)
        switch (i-- % 3) {
        case 0: continue;
        case 1: putchar('1'); break;
        default: putchar('.');
        }
    putchar('\n');
    return sum % 256;
}
