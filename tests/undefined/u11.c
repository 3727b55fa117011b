/* A pointer goes further than one past the end of its array. */
int main(void)
{
    int list[4] = { 1, 2, 3, 4 };
    int *p = list, sum = 0;
    for (; p < list + 4;
         p += 3) /* U11 */
        sum += *p;
    return sum;
}
