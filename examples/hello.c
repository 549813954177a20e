int main(void)
{
    putchar(72);
    putchar(60 + 9 * 5);
    putchar(2 * (7 - 2));
    return 3;
}
