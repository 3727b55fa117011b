/* A shift by as many bits as the type has. */
int main(void)
{
    unsigned mask = 0;
    int bits;
    for (bits = 1; bits <= 32; bits++)
        mask =
            (1u << bits) - 1; /* U4 */
    return mask != 0;
}
