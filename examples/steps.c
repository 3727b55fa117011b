int printf(const char *, ...);

int list[3] = {1, 2, 3};
int at;

int next(void)
{
    return at++;
}

int main(void)
{
    int sum = list[next()] - list[next()];
    printf("%d\n", sum);
    sum = list[next()] + list[next()];
    return sum;
}
