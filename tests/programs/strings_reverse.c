/* Texts that are turned round in place, and palindromes among them. */
int puts(const char *);
int printf(const char *, ...);

static unsigned long length_of(const char *text)
{
    const char *end = text;
    while (*end)
        end++;
    return end - text;
}

static void reverse(char *text)
{
    unsigned long low = 0, high = length_of(text);
    while (low + 1 < high) {
        char kept = text[low];
        high--;
        text[low] = text[high];
        text[high] = kept;
        low++;
    }
}

static int is_palindrome(const char *text)
{
    const char *end = text + length_of(text);
    while (text < end && text < end - 1) {
        if (*text++ != *--end)
            return 0;
    }
    return 1;
}

char word[] = "stressed";
char even[] = "noon";
char one[] = "x";
char none[] = "";

int main(void)
{
    char *all[4];
    int i, found = 0;
    all[0] = word, all[1] = even, all[2] = one, all[3] = none;
    for (i = 0; i < 4; i++) {
        reverse(all[i]);
        puts(all[i]);
        found += is_palindrome(all[i]);
    }
    printf("%d of %d, %lu bytes\n", found, 4, length_of(word));
    return found;
}
