/* What is freed isn't what was allocated. */
void *malloc(unsigned long);
void free(void *);
int main(void)
{
    char *text = malloc(4);
    if (text)
        free(text + 1); /* U15 */
    return 0;
}
