/* Writes a transcript of exactly LINES lines for the paper's board, three 24CS32 at straps 0, 1 and 2:
 * whole turns of its chips, mixed, the same ones each time.
 *
 *     transcript LINES
 */
#include <stdio.h>
#include <stdlib.h>

enum {
    CHIPS = 3,
    ARRAY_SIZE = 4096,
    PAGE_SIZE = 32,
    MOST_POLLS = 3,
    LONGEST_TURNS = 80 /* more lines than one choice of `turn` writes */
};

enum kind { START = 1, STOP = 2, SEND = 3, READ = 4, WP_LOW = 5, CYCLE_OVER = 7 };
enum { HOST_ACK = 0, HOST_NACK = 1 };
enum { ARRAY = 0xA0, REGISTER = 0xB0, READ_BIT = 1, ID_SELECT = 0xF8, ID_READ = 0xF9 };
enum { CONFIGURATION_HIGH = 0x88 };

static long lines;              /* written so far */
static unsigned seed = 2463534242; /* of the xorshift generator */

static unsigned below(unsigned bound)
{
    seed ^= seed << 13;
    seed ^= seed >> 17;
    seed ^= seed << 5;
    return seed % bound;
}

static void event(enum kind kind, unsigned value)
{
    printf("%02X%02X\n", (unsigned)kind, value);
    lines++;
}

static void start(unsigned address_byte)
{
    event(START, 0);
    event(SEND, address_byte);
}

static void word_address(unsigned address)
{
    event(SEND, address >> 8);
    event(SEND, address & 0xFF);
}

static void read_bytes(unsigned count)
{
    while (count-- > 1)
        event(READ, HOST_ACK);
    event(READ, HOST_NACK);
    event(STOP, 0);
}

static void poll(unsigned chip)
{
    start(ARRAY | chip << 1);
    event(STOP, 0);
}

/* A page write of 1 to 32 bytes, polled while it is busy, and its end. */
static void page_write(unsigned chip)
{
    start(ARRAY | chip << 1);
    word_address(below(ARRAY_SIZE));
    for (unsigned count = 1 + below(PAGE_SIZE); count > 0; count--)
        event(SEND, below(256));
    event(STOP, 0);
    for (unsigned count = below(MOST_POLLS + 1); count > 0; count--)
        poll(chip);
    event(CYCLE_OVER, chip);
}

static void random_read(unsigned chip, unsigned count)
{
    start(ARRAY | chip << 1);
    word_address(below(ARRAY_SIZE));
    start(ARRAY | chip << 1 | READ_BIT);
    read_bytes(count);
}

static void configuration_read(unsigned chip)
{
    start(REGISTER | chip << 1);
    word_address(CONFIGURATION_HIGH << 8);
    start(REGISTER | chip << 1 | READ_BIT);
    read_bytes(2);
}

static void identification_read(unsigned chip)
{
    start(ID_SELECT);
    event(SEND, ARRAY | chip << 1);
    start(ID_READ);
    read_bytes(3);
}

static void turn(void)
{
    unsigned chip = below(CHIPS);
    unsigned choice = below(16);

    if (choice < 5)
        page_write(chip);
    else if (choice < 8)
        random_read(chip, 1);
    else if (choice < 11)
        random_read(chip, 2 + below(PAGE_SIZE));
    else if (choice < 13)
        poll(chip);
    else if (choice < 15)
        configuration_read(chip);
    else
        identification_read(chip);
}

int main(int argc, char **argv)
{
    long wanted = argc == 2 ? strtol(argv[1], NULL, 10) : -1;

    if (wanted < 0) {
        fputs("transcript: expected the number of lines\n", stderr);
        return 2;
    }
    while (lines + LONGEST_TURNS <= wanted)
        turn();
    while (lines < wanted)
        event(WP_LOW, 0); /* a turn by itself */
    return fflush(stdout) == 0 ? 0 : 1;
}
