/* A number is divided by zero. */
static int mean(int sum, int count)
{
    return 1 +
        sum / count; /* U3 */
}
int main(void)
{
    return mean(6, 2) + mean(0, 0);
}
