/* Bytes are copied onto bytes that overlap them. */
void *memcpy(void *, const void *, unsigned long), *memmove(void *, const void *, unsigned long);
static char text[8] = "abcdef";
int main(void)
{
    memcpy(text + 4, text, 4);
    memmove(text + 2, text, 4);
    memcpy(text + 1, text, 3); /* U16 */
    return text[0];
}
