/* A sum is greater than the greatest int. */
int main(void)
{
    int n, sum = 0;
    for (n = 1; sum >= 0; n = n * 2) {
        sum = 1 +
            (sum + n); /* U2 */
    }
    return 0;
}
