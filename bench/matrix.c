int a[60][60], b[60][60], c[60][60];

int main(void)
{
    int i, j, k, sum, turn;
    for (i = 0; i < 60; i++)
        for (j = 0; j < 60; j++) {
            a[i][j] = i + j;
            b[i][j] = i - j;
        }
    for (turn = 0; turn < 20; turn++)
        for (i = 0; i < 60; i++)
            for (j = 0; j < 60; j++) {
                sum = 0;
                for (k = 0; k < 60; k++)
                    sum += a[i][k] * b[k][j];
                c[i][j] = sum;
            }
    return c[7][11] & 127;
}
