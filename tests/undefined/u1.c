/* An object is stored and read with no sequence point between. */
int list[4];

int main(void)
{
    int i = 1;
    while (i < 3)
        list[i] = i++; /* U1 */
    return list[2];
}
