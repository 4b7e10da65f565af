// The partial sums of a table. The table lies in .data. The sums lie in .bss, of which the file has no bytes.
static volatile unsigned long table[8] = {1, 2, 3, 4, 5, 6, 7, 8};
static volatile unsigned long sums[8];

unsigned long main(void)
{
    unsigned long sum = 0;
    for (int i = 0; i < 8; i++) {
        sum += table[i];
        sums[i] += sum;
    }
    return sum;
}
