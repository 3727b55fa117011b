/* The value of a call is used that ended without one. */
static int sign(int n)
{
    if (n > 0) return 1;
    if (n < 0) return -1;
}
int main(void)
{
    return sign(5) + sign(-5) + sign(0); /* U14 */
}
