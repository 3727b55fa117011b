/* Numbers in words and in Roman digits. */
int printf(const char *, ...);

static const char *const ones[] = {
    "zero", "one", "two", "three", "four", "five", "six", "seven", "eight", "nine", "ten", "eleven", "twelve", "thirteen",
    "fourteen", "fifteen", "sixteen", "seventeen", "eighteen", "nineteen"
};
static const char *const tens[10] = { [2] = "twenty", "thirty", "forty", "fifty", "sixty", "seventy", "eighty", "ninety" };

static void say(unsigned n)
{
    static const struct { unsigned value; const char *name; } great[] = {
        { 1000000000, "billion" }, { 1000000, "million" }, { 1000, "thousand" }, { 100, "hundred" }
    };
    unsigned i;
    for (i = 0; i < 4; i++)
        if (n >= great[i].value) {
            say(n / great[i].value);
            printf(" %s", great[i].name);
            n %= great[i].value;
            if (!n)
                return;
            printf(" ");
        }
    if (n < 20)
        printf("%s", ones[n]);
    else {
        printf("%s", tens[n / 10]);
        if (n % 10)
            printf("-%s", ones[n % 10]);
    }
}

static char *roman(unsigned n, char *to)
{
    static const char digits[] = "ivxlcdm";
    unsigned place = 1000, at = 6;
    for (; place; place /= 10, at -= 2) {
        unsigned d = n / place % 10;
        if (d == 9)
            *to++ = digits[at], *to++ = digits[at + 2];
        else if (d == 4)
            *to++ = digits[at], *to++ = digits[at + 1];
        else {
            if (d >= 5)
                *to++ = digits[at + 1], d -= 5;
            while (d--)
                *to++ = digits[at];
        }
    }
    *to = 0;
    return to;
}

int main(void)
{
    static const unsigned all[] = { 0, 7, 13, 40, 99, 100, 1001, 20019, 1999, 4294967295 };
    char text[20];
    int i, length = 0;
    for (i = 0; i < 10; i++) {
        say(all[i]);
        printf("\n");
        if (all[i] < 4000) {
            length += roman(all[i], text) - text;
            printf("%s\n", text);
        }
    }
    return length;
}
