/* An Intel HEX reader and writer in plain C: a file is read into an array, FFh at the start, and the array
 * is written as another file.
 *
 *     hex SIZE [IN [OUT]]
 *
 * It is what ./speed measures the bench's `load` and `save` against, and a second opinion on them. It is
 * written from the words of request E1, with the decisions D41 to D52 of docs/DECISIONS.md (cited below as
 * [D44]). A refusal prints its number and the line at fault, 1 for the first; the status is 1.
 */

typedef unsigned char byte;
typedef _Bool bool;

/* All it needs of libc, declared here because the cross compiler on Arm comes without headers. */
int open(const char *path, int flags, ...);
int close(int file);
long read(int file, void *to, unsigned long size);
long write(int file, const void *from, unsigned long size);
void *memset(void *to, int value, unsigned long size);
void *memcpy(void *to, const void *from, unsigned long size);

enum {
    READ_ONLY = 00,
    OVERWRITE = 01 | 0100 | 01000, /* write only, made where it is missing, cut to nothing */
    READ_WRITE_ALL = 0666
};

enum {
    STANDARD_OUTPUT = 1,
    STANDARD_ERROR = 2,
    EXIT_DONE = 0,
    EXIT_FAILED = 1,
    EXIT_USAGE = 2
};

enum {
    LARGEST_ARRAY = 131072,
    LARGEST_TEXT = 2097152,
    ERASED = 0xFF,
    ROW = 16, /* data bytes of a record that is written */
    MOST_DATA = 255,
    UPPER_STEP = 65536 /* addresses under the same upper 16 bits */
};

/* ---- A record */

enum kind { DATA = 0, END = 1, UPPER = 4 };

/* Which byte of a record is which; the check byte comes after the data. */
enum {
    COUNT,
    ADDRESS_HIGH,
    ADDRESS_LOW,
    KIND,
    FIRST_DATA,
    BESIDE_DATA = FIRST_DATA + 1,
    MOST_BYTES = BESIDE_DATA + MOST_DATA
};

enum { END_COUNT = 0, UPPER_COUNT = 2 }; /* [D44] */

enum refusal {
    PASSED = 0,
    BAD_RECORD = 20,
    WRONG_SUM = 21,
    UNKNOWN_TYPE = 22,
    PAST_ARRAY = 23,
    NO_END = 24
};

struct text {
    const byte *at, *end;
};

static unsigned word_of(byte high, byte low)
{
    return (unsigned)high << 8 | low;
}

/* The byte that makes the sum of all 0 modulo 256. */
static byte check_of(const byte *bytes, unsigned count)
{
    unsigned sum = 0;
    for (unsigned i = 0; i < count; i++)
        sum += bytes[i];
    return (byte)-sum;
}

/* ---- Reading */

enum { IS_DIGIT = 0x10 };

/* The value of a digit of either case with IS_DIGIT; 0 for what is no digit. */
static const byte digits[256] = {
    ['0'] = 0x10, ['1'] = 0x11, ['2'] = 0x12, ['3'] = 0x13, ['4'] = 0x14, ['5'] = 0x15,
    ['6'] = 0x16, ['7'] = 0x17, ['8'] = 0x18, ['9'] = 0x19, ['A'] = 0x1A, ['B'] = 0x1B,
    ['C'] = 0x1C, ['D'] = 0x1D, ['E'] = 0x1E, ['F'] = 0x1F, ['a'] = 0x1A, ['b'] = 0x1B,
    ['c'] = 0x1C, ['d'] = 0x1D, ['e'] = 0x1E, ['f'] = 0x1F,
};

/* Reads so many bytes of two digits each; tells whether they stand there. */
static bool read_bytes(struct text *text, byte *to, unsigned count)
{
    if (text->end - text->at < 2 * (long)count)
        return 0;
    for (unsigned i = 0; i < count; i++, text->at += 2) {
        byte high = digits[text->at[0]], low = digits[text->at[1]];
        if (!(high & low & IS_DIGIT))
            return 0;
        to[i] = (byte)(high << 4 | (low & 0xF));
    }
    return 1;
}

static bool read_character(struct text *text, byte c)
{
    if (text->at == text->end || *text->at != c)
        return 0;
    text->at++;
    return 1;
}

/* LF or CR LF [D42] [D43]. */
static bool read_line_end(struct text *text)
{
    read_character(text, '\r');
    return read_character(text, '\n');
}

/* Reads a line into the bytes of a record, whatever its type. */
static bool read_record(struct text *text, byte *record)
{
    return read_character(text, ':') && read_bytes(text, record, 1) &&
           read_bytes(text, record + 1, BESIDE_DATA - 1 + record[COUNT]) && read_line_end(text);
}

static unsigned long first_address(const byte *record, unsigned upper)
{
    return (unsigned long)upper * UPPER_STEP + word_of(record[ADDRESS_HIGH], record[ADDRESS_LOW]);
}

static bool is_bad_length(const byte *record)
{
    return (record[KIND] == END && record[COUNT] != END_COUNT) ||
           (record[KIND] == UPPER && record[COUNT] != UPPER_COUNT);
}

/* Only bytes that the record names count [D46]. */
static bool is_past(const byte *record, unsigned upper, unsigned size)
{
    return record[KIND] == DATA && record[COUNT] > 0 && first_address(record, upper) + record[COUNT] > size;
}

/* Reads a record and checks it, in the order of the numbers. */
static enum refusal next_record(struct text *text, byte *record, unsigned upper, unsigned size)
{
    if (!read_record(text, record) || is_bad_length(record))
        return BAD_RECORD;
    if (check_of(record, BESIDE_DATA + record[COUNT]) != 0)
        return WRONG_SUM;
    if (record[KIND] != DATA && record[KIND] != END && record[KIND] != UPPER)
        return UNKNOWN_TYPE; /* [D49] */
    if (is_past(record, upper, size))
        return PAST_ARRAY;
    return PASSED;
}

/* The upper 16 address bits stand until a record of type 04 gives others [D47]. */
static unsigned upper_after(const byte *record, unsigned upper)
{
    return record[KIND] == UPPER ? word_of(record[FIRST_DATA], record[FIRST_DATA + 1]) : upper;
}

/* Checks a text whole; counts the lines up to the one at fault [D41] [D48] [D52]. */
static enum refusal check(struct text text, unsigned size, unsigned *line)
{
    byte record[MOST_BYTES];
    unsigned upper = 0;

    for (*line = 1; text.at < text.end; ++*line) {
        enum refusal refusal = next_record(&text, record, upper, size);
        if (refusal != PASSED)
            return refusal;
        if (record[KIND] == END) {
            ++*line;
            return text.at == text.end ? PASSED : NO_END;
        }
        upper = upper_after(record, upper);
    }
    return NO_END;
}

/* Stores the data of a text that was checked. */
static void store(struct text text, byte *array)
{
    byte record[MOST_BYTES];
    unsigned upper = 0;

    while (text.at < text.end && read_record(&text, record)) {
        if (record[KIND] == DATA && record[COUNT] > 0)
            memcpy(array + first_address(record, upper), record + FIRST_DATA, record[COUNT]);
        upper = upper_after(record, upper);
    }
}

/* ---- Writing */

static byte *put_bytes(byte *to, const byte *bytes, unsigned count)
{
    static const char upper_case[] = "0123456789ABCDEF";

    for (unsigned i = 0; i < count; i++) {
        *to++ = (byte)upper_case[bytes[i] >> 4];
        *to++ = (byte)upper_case[bytes[i] & 0xF];
    }
    return to;
}

static byte *put_record(byte *to, enum kind kind, unsigned address, const byte *data, unsigned count)
{
    byte head[FIRST_DATA] = {(byte)count, (byte)(address >> 8), (byte)address, (byte)kind};
    byte check = (byte)(check_of(head, FIRST_DATA) + check_of(data, count));

    *to++ = ':';
    to = put_bytes(to, head, FIRST_DATA);
    to = put_bytes(to, data, count);
    to = put_bytes(to, &check, 1);
    *to++ = '\n';
    return to;
}

/* Writes the array as text, with no 04 at the start [D51]; returns the text's end. */
static byte *put_array(byte *to, const byte *array, unsigned size)
{
    unsigned upper = 0;

    for (unsigned at = 0; at < size; at += ROW) {
        if (at / UPPER_STEP != upper) {
            upper = at / UPPER_STEP;
            byte bytes[UPPER_COUNT] = {(byte)(upper >> 8), (byte)upper};
            to = put_record(to, UPPER, 0, bytes, UPPER_COUNT);
        }
        to = put_record(to, DATA, at % UPPER_STEP, array + at, ROW);
    }
    return put_record(to, END, 0, array, END_COUNT);
}

/* ---- Files */

static byte array[LARGEST_ARRAY];
static byte text[LARGEST_TEXT + 1]; /* one more, to see that a file is too long */

/* Reads a file to its end; a negative size where it fails or does not fit. */
static long read_whole(const char *path, byte *to)
{
    int file = open(path, READ_ONLY);
    long size = 0, got = file < 0 ? -1 : 1;

    while (got > 0 && size <= LARGEST_TEXT) {
        got = read(file, to + size, (unsigned long)(LARGEST_TEXT + 1 - size));
        size += got;
    }
    if (file >= 0)
        close(file);
    return got == 0 ? size : -1;
}

static bool write_all(int file, const byte *from, long size)
{
    while (size > 0) {
        long wrote = write(file, from, (unsigned long)size);
        if (wrote <= 0)
            return 0;
        from += wrote;
        size -= wrote;
    }
    return 1;
}

static bool write_whole(const char *path, const byte *from, long size)
{
    int file = open(path, OVERWRITE, READ_WRITE_ALL);
    if (file < 0)
        return 0;
    bool wrote = write_all(file, from, size);
    return close(file) == 0 && wrote;
}

/* ---- The program */

static int complain(const char *message, unsigned long size)
{
    write(STANDARD_ERROR, message, size - 1);
    return EXIT_FAILED;
}

/* A multiple of 16; 0 where the word is none, or too large. */
static unsigned read_size(const char *word)
{
    unsigned size = 0;

    for (; *word != '\0'; word++) {
        if (*word < '0' || *word > '9' || size > LARGEST_ARRAY)
            return 0;
        size = size * 10 + (unsigned)(*word - '0');
    }
    return size <= LARGEST_ARRAY && size % ROW == 0 ? size : 0;
}

static byte *put_number(byte *to, unsigned number)
{
    if (number >= 10)
        to = put_number(to, number / 10);
    *to++ = (byte)('0' + number % 10);
    return to;
}

static void print_refusal(enum refusal refusal, unsigned line)
{
    byte answer[32];
    byte *to = put_number(answer, refusal);

    *to++ = ' ';
    to = put_number(to, line);
    *to++ = '\n';
    write_all(STANDARD_OUTPUT, answer, to - answer);
}

static int load(const char *path, unsigned size)
{
    static const char unread[] = "hex: the file cannot be read, or is longer than 2097152 bytes\n";
    long length = read_whole(path, text);
    unsigned line;

    if (length < 0)
        return complain(unread, sizeof unread);
    struct text read = {text, text + length};
    enum refusal refusal = check(read, size, &line);
    if (refusal != PASSED) {
        print_refusal(refusal, line);
        return EXIT_FAILED;
    }
    store(read, array);
    return EXIT_DONE;
}

static int save(const char *path, unsigned size)
{
    static const char unwritten[] = "hex: the file cannot be written\n";
    byte *end = put_array(text, array, size);

    return write_whole(path, text, end - text) ? EXIT_DONE : complain(unwritten, sizeof unwritten);
}

int main(int argc, char **argv)
{
    static const char expected[] = "hex: expected SIZE [IN [OUT]], SIZE a multiple of 16 up to 131072\n";
    unsigned size = argc >= 2 && argc <= 4 ? read_size(argv[1]) : 0;
    int status = EXIT_DONE;

    if (size == 0) {
        complain(expected, sizeof expected);
        return EXIT_USAGE;
    }
    memset(array, ERASED, size);
    if (argc > 2)
        status = load(argv[2], size);
    if (argc > 3 && status == EXIT_DONE)
        status = save(argv[3], size);
    return status;
}
