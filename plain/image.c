/* Writes an Intel HEX text of a whole 24CSM01: random bytes, the same ones each time, WIDTH of them to a
 * record, and all of them TIMES over. With 16 and 1 it is the text that the bench saves.
 *
 *     image WIDTH TIMES
 */
#include <stdio.h>
#include <stdlib.h>

enum { ARRAY_SIZE = 131072, UPPER_STEP = 65536, MOST_WIDTH = 255 };
enum kind { DATA = 0, END = 1, UPPER = 4 };

static unsigned char array[ARRAY_SIZE];
static unsigned seed = 2463534242; /* of the xorshift generator */
static unsigned upper;             /* address bits, as the last record of type 04 gave them */

static unsigned char any_byte(void)
{
    seed ^= seed << 13;
    seed ^= seed >> 17;
    seed ^= seed << 5;
    return (unsigned char)(seed >> 8);
}

static void record(enum kind kind, unsigned address, const unsigned char *data, unsigned count)
{
    unsigned sum = count + (address >> 8) + address + kind;

    printf(":%02X%04X%02X", count, address, (unsigned)kind);
    for (unsigned i = 0; i < count; i++) {
        printf("%02X", data[i]);
        sum += data[i];
    }
    printf("%02X\n", -sum & 0xFF);
}

static void data_record(unsigned at, unsigned count)
{
    if (at / UPPER_STEP != upper) {
        upper = at / UPPER_STEP;
        unsigned char bytes[] = {(unsigned char)(upper >> 8), (unsigned char)upper};
        record(UPPER, 0, bytes, sizeof bytes);
    }
    record(DATA, at % UPPER_STEP, array + at, count);
}

int main(int argc, char **argv)
{
    long width = argc == 3 ? strtol(argv[1], NULL, 10) : 0;
    long times = argc == 3 ? strtol(argv[2], NULL, 10) : 0;

    if (width < 1 || width > MOST_WIDTH || ARRAY_SIZE % width != 0 || times < 1) {
        fputs("image: expected the bytes of a record, a divisor of 131072 below 256, and how many times\n", stderr);
        return 2;
    }
    for (unsigned at = 0; at < ARRAY_SIZE; at++)
        array[at] = any_byte();
    for (; times > 0; times--) {
        for (unsigned at = 0; at < ARRAY_SIZE; at += (unsigned)width)
            data_record(at, (unsigned)width);
    }
    record(END, 0, NULL, 0);
    return fflush(stdout) == 0 ? 0 : 1;
}
