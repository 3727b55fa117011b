/* An object is read that has no value yet. */
int main(void)
{
    int list[3], i, sum = 0;
    for (i = 1; i < 3; i++)
        list[i] = i;
    for (i = 2; i >= 0; i--)
        sum += list[i]; /* U7 */
    return sum;
}
