/* A byte is read as a truth value that is neither 0 nor 1. */
union { unsigned char byte; _Bool truth; } both;
int main(void)
{
    both.byte = 1;
    if (both.truth)
        both.byte = 2;
    return both.byte
        + both.truth; /* U8 */
}
