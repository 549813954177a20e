/* counts the lines, words and bytes of what stands behind the mark */
int putchar(int), getchar(void);

void number(int n) {
    if (n > 9)
        number(n / 10);
    putchar('0' + n % 10);
}

int main(void) {
    int c, lines = 0, words = 0, bytes = 0, inside = 0;
    while ((c = getchar()) != -1) {
        ++bytes;
        if (c == '\n')
            ++lines;
        if (c == ' ' || c == '\n' || c == '\t')
            inside = 0;
        else if (!inside) {
            inside = 1;
            ++words;
        }
    }
    number(lines), putchar(' '), number(words), putchar(' '), number(bytes), putchar('\n');
    return 0;
}
%%
one two
three
