/* Records are sorted by merging, so that equal ones keep their order. */
void *malloc(unsigned long);
void free(void *);
void *memcpy(void *, const void *, unsigned long);
int printf(const char *, ...);

struct entry {
    const char *name;
    unsigned char age;
};

static int sort(struct entry *list, unsigned count)
{
    unsigned half = count / 2, i = 0, k = half, n;
    struct entry *merged;
    if (count < 2)
        return 1;
    if (!sort(list, half) || !sort(list + half, count - half))
        return 0;
    merged = malloc(count * sizeof *merged);
    if (!merged)
        return 0;
    for (n = 0; n < count; n++)
        merged[n] = k == count || (i < half && list[i].age <= list[k].age) ? list[i++] : list[k++];
    memcpy(list, merged, count * sizeof *merged);
    free(merged);
    return 1;
}

int main(void)
{
    struct entry people[] = {
        { "Ada", 36 }, { "Alan", 41 }, { "Grace", 85 }, { "Edsger", 72 }, { "Kurt", 71 },
        { "Emmy", 53 }, { "Haskell", 81 }, { "Alonzo", 92 }, { "John", 53 }, { "Barbara", 85 },
    };
    unsigned i;
    if (!sort(people, 10))
        return 1;
    for (i = 0; i < 10; i++)
        printf("%s %d\n", people[i].name, people[i].age);
    return 0;
}
