/* A byte of a stored pointer is read as a number. */
int main(void)
{
    int object = 7;
    int *p = &object;
    unsigned char *bytes = (unsigned char *)&p;
    if (*p != 7)
        return 1;
    return bytes[0]; /* U9 */
}
