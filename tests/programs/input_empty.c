/* Input that is empty is at its end from the beginning, however often it is asked. */
int getchar(void);
int printf(const char *, ...);

int main(void)
{
    int i, sum = 0;
    for (i = 0; i < 3; i++)
        sum += getchar();
    printf("%d\n", sum);
    return -sum;
}
