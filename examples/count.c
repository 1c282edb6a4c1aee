int main(void)
{
    int c;
    int lines = 0;
    int long_ones = 0;
    int length = 0;
    c = getchar();
    while (0 < c + 1) {
        length = length + 1;
        if (c == 10) {
            lines = lines + 1;
            if (20 < length)
                long_ones = long_ones + 1;
            length = 0;
        }
        c = getchar();
    }
    putchar(48 + lines);
    putchar(48 + long_ones);
    return 0;
}
