int main(void)
{
    int i = 0;
    int j = 0;
    while (i < 5000000) {
        j = j < i;
        i = i + 1;
    }
    return j;
}
