int putchar(int);
int x = 60;
int main(void) {
    x = x + putchar(x + 5);
    return x - 125;
}
