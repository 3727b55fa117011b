/* An element behind the last one of an array is read. */
static const int list[] = { 1, 2, 3 };
int main(void)
{
    int sum = 0, i;
    for (i = 0; i <= 3; i++)
        sum = sum
            + list[i]; /* U6 */
    return sum;
}
