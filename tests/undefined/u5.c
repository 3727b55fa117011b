/* An object is used whose life has ended. */
void *malloc(unsigned long);
void free(void *);
int main(void)
{
    int *p = malloc(sizeof *p);
    *p = 5;
    free(p);
    return *p; /* U5 */
}
