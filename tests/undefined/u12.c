/* Pointers into two arrays are put in an order. */
static int first[2], second[2];
static int *least(int *a, int *b)
{
    return a < b ? a : b; /* U12 */
}
int main(void)
{
    return *least(first, first + 1) + *least(first, second);
}
