/* A program that ends inside of a function that was called by another. */
int printf(const char *, ...);
void exit(int);

static void deep(int n)
{
    if (n == 0)
        exit(300 - 256 + 1);
    printf("%d\n", n);
    deep(n - 1);
    printf("never\n");
}

int main(void)
{
    deep(4);
    return 1;
}
