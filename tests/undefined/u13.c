/* A function is called with fewer arguments than it takes. */
static int twice(int n)
{
    return n * 2;
}
int main(void)
{
    int (*f)() = twice;
    return 1 + f(); /* U13 */
}
