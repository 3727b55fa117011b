/* A number is read from bytes that aren't aligned for it. */
int main(void)
{
    unsigned char bytes[8];
    int i;
    for (i = 0; i < 8; i++)
        bytes[i] = i;
    return bytes[1]
        + *(int *)(bytes + 4); /* U10 */
}
