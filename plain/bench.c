/* The bench in plain C: one to four serial EEPROMs on an I2C line, a transcript in, answers out.
 *
 * It is what ./speed measures the proved program against, and a second opinion on its answers. It is
 * written from the rules of the bench (cited below by the name of their bullet, as [Data]), the customer's
 * requests and the data sheets, 000 for the 24CSM01, 001 for the 24CS32 and 002 for the AT24CM01, and from
 * no Rattle code.
 */

typedef unsigned char byte;
typedef _Bool bool;

/* All it needs of libc, declared here because the cross compiler on Arm comes without headers. */
long read(int file, void *to, unsigned long size);
long write(int file, const void *from, unsigned long size);
void *memset(void *to, int value, unsigned long size);

/* ---- The parts [What the bench plays] */

enum {
    MOST_CHIPS = 4,
    LARGEST_ARRAY = 131072,
    LARGEST_SECURITY = 512,
    LARGEST_PAGE = 256,
    SERIAL_SIZE = 16, /* sheets, Table 10-1 */
    ID_SIZE = 3
};

struct part {
    unsigned array, page, zone;   /* bytes; each a power of two */
    unsigned security, read_only; /* the ID page is the rest of the security register */
    unsigned straps;
    unsigned a16_bits; /* how many of the three address bits are A16 and not strap */
    bool registers;    /* security and configuration, which 1011 bytes are for (request E7) */
    bool identifies;   /* which F8h and F9h are for (request E7) */
    byte id[ID_SIZE];  /* sheets, section 11.1; never sent where the part does not identify */
};

static const struct part parts[] = {
    {0, 0, 0, 0, 0, 0, 0, 0, 0, {0, 0, 0}}, /* there is no part 0 */
    {131072, 256, 16384, 512, 256, 4, 1, 1, 1, {0x00, 0xD0, 0xD0}},
    {4096, 32, 512, 64, 32, 8, 0, 1, 1, {0x00, 0xD0, 0xA8}},
    {131072, 256, 16384, 0, 0, 4, 1, 0, 0, {0, 0, 0}}, /* the AT24CM01: its EWPM stays 0, so zones protect nothing */
};

enum { FIRST_PART = 1, LAST_PART = 3 };

/* ---- One chip [How one chip behaves] */

enum phase {
    STANDBY,
    BUSY,
    /* taking */
    ADDRESS,    /* awaits an address byte */
    ID_ADDRESS, /* awaits the byte after F8h */
    ARRAY_HIGH, /* awaits a word-address byte */
    ARRAY_LOW,
    REGISTER_HIGH,
    REGISTER_LOW,
    ARRAY_DATA, /* takes data bytes */
    SECURITY_DATA,
    CONFIGURATION_DATA,
    LOCK_DATA,
    LOST_DATA, /* acknowledged and kept nowhere */
    /* sending */
    SEND_ARRAY,
    SEND_SECURITY,
    SEND_CONFIGURATION,
    SEND_ID,
    SEND_NOTHING,
    /* the bounds of the two groups */
    FIRST_TAKING = ADDRESS,
    LAST_TAKING = LOST_DATA,
    FIRST_SENDING = SEND_ARRAY
};

/* Address bytes: 1010 or 1011, three bits, read bit; or a reserved host code (sheets, Table 3-2). */
enum {
    CODE_ARRAY = 0xA,
    CODE_REGISTER = 0xB,
    READ_BIT = 1,
    ID_SELECT = 0xF8,
    ID_READ = 0xF9
};

/* First word-address byte of a register access: which bits count, what they are (Tables 3-3, 9-2). */
enum {
    REGISTER_MASK = 0x8C,
    SECURITY_PATTERN = 0x08,      /* 0xxx 10xx */
    CONFIGURATION_PATTERN = 0x88, /* 1xxx 10xx */
    LOCK_MASK = 0x0F,
    LOCK_PATTERN = 0x06 /* xxxx 0110 */
};

/* Configuration register (Registers 9-1 and 9-2, Table 9-4). */
enum {
    CONFIGURATION_SIZE = 2,
    LOCK_BIT = 0x01,
    EWPM_BIT = 0x02,
    WRITABLE_BITS = LOCK_BIT | EWPM_BIT,
    CONFIRM_LOCKED = 0x99,
    CONFIRM_UNLOCKED = 0x66,
    CONFIGURATION_BYTES = 3, /* byte 0, byte 1, confirmation */
    MANY_BYTES = 4           /* data bytes are counted no further */
};

enum { NO_BYTE = 0xFF }; /* what the line reads when nobody pulls it low */

struct chip {
    const struct part *part;
    unsigned strap;
    enum phase phase;
    bool wp;
    bool id_page_locked;
    bool chosen;      /* by F8h and its address */
    enum phase shown; /* what a 1011 read sends: SEND_SECURITY, SEND_CONFIGURATION or SEND_NOTHING */
    unsigned array_counter, security_counter;
    byte configuration[CONFIGURATION_SIZE];
    unsigned a16;                   /* from the address byte of a write */
    byte high;                      /* first word-address byte */
    unsigned data_bytes;            /* since the word address; at most MANY_BYTES */
    byte sent[CONFIGURATION_BYTES]; /* data bytes for the configuration register */
    unsigned place;                 /* next byte of the configuration or the ID to send */
    byte load[LARGEST_PAGE];        /* bytes for the page, stored at the Stop */
    bool loaded[LARGEST_PAGE];      /* which of them came */
    byte array[LARGEST_ARRAY];
    byte security[LARGEST_SECURITY];
};

/* The sizes are powers of two. */
static unsigned modulo(unsigned number, unsigned size)
{
    return number & (size - 1);
}

static bool is_taking(const struct chip *chip)
{
    return chip->phase >= FIRST_TAKING && chip->phase <= LAST_TAKING;
}

static bool is_sending(const struct chip *chip)
{
    return chip->phase >= FIRST_SENDING;
}

/* [Address byte] The read bit is not looked at, nor is the bit that is A16 where the part has it. No 1011 byte names
 * a chip without registers (request E7). */
static bool is_named(const struct chip *chip, unsigned code, byte b)
{
    unsigned bits = (b >> 1) & 7;
    return b >> 4 == code && bits >> chip->part->a16_bits == chip->strap &&
           (code != CODE_REGISTER || chip->part->registers);
}

static void drop_load(struct chip *chip)
{
    if (chip->data_bytes > 0)
        memset(chip->loaded, 0, chip->part->page);
    chip->data_bytes = 0;
}

/* [Start] */
static void chip_start(struct chip *chip)
{
    if (chip->phase == BUSY)
        return;
    drop_load(chip);
    chip->phase = ADDRESS;
}

/* ---- A byte that the host sends. Each of these tells whether the chip acknowledges. */

static bool go_to(struct chip *chip, enum phase phase)
{
    chip->phase = phase;
    return 1;
}

static bool fall_silent(struct chip *chip)
{
    chip->phase = STANDBY;
    return 0;
}

/* [Address byte], [Device ID] To a chip that does not identify itself F8h and F9h are for nobody (request E7). */
static bool take_address(struct chip *chip, byte b)
{
    bool reads = b & READ_BIT;

    if (b == ID_READ && chip->part->identifies) {
        chip->place = 0;
        return chip->chosen ? go_to(chip, SEND_ID) : fall_silent(chip);
    }
    chip->chosen = 0;
    if (b == ID_SELECT && chip->part->identifies)
        return go_to(chip, ID_ADDRESS);
    if (is_named(chip, CODE_ARRAY, b)) {
        chip->a16 = (b >> 1) & 1; /* on a 24CS32 a bit of the strap; its array's size takes it away */
        return go_to(chip, reads ? SEND_ARRAY : ARRAY_HIGH);
    }
    if (is_named(chip, CODE_REGISTER, b)) {
        chip->place = 0; /* [Configuration] each read starts at byte 0 */
        return go_to(chip, reads ? chip->shown : REGISTER_HIGH);
    }
    return fall_silent(chip); /* 08h to 0Fh too */
}

/* [Device ID] The byte after F8h: the chip whose 1010 address it is, is chosen, and takes nothing
 * before the next Start. It is no address byte, so it drops no choice (D40). */
static bool take_id_address(struct chip *chip, byte b)
{
    bool named = is_named(chip, CODE_ARRAY, b);

    chip->chosen |= named;
    chip->phase = STANDBY;
    return named;
}

/* [Write] The counter is set on the second byte. */
static bool take_array_low(struct chip *chip, byte b)
{
    unsigned address = chip->a16 << 16 | (unsigned)chip->high << 8 | b;
    chip->array_counter = modulo(address, chip->part->array);
    return go_to(chip, ARRAY_DATA);
}

/* [Security register], sheets 10.4: a locked ID page does not acknowledge the lock command. */
static bool take_register_high(struct chip *chip, byte b)
{
    if ((b & LOCK_MASK) == LOCK_PATTERN && chip->id_page_locked)
        return fall_silent(chip);
    chip->high = b;
    return go_to(chip, REGISTER_LOW);
}

/* [Security register] What the whole word address named is what later 1011 reads show. */
static bool take_register_low(struct chip *chip, byte b)
{
    if ((chip->high & REGISTER_MASK) == SECURITY_PATTERN) {
        unsigned address = (unsigned)chip->high << 8 | b;
        chip->security_counter = modulo(address, chip->part->security);
        chip->shown = SEND_SECURITY;
        return go_to(chip, SECURITY_DATA);
    }
    if ((chip->high & REGISTER_MASK) == CONFIGURATION_PATTERN) {
        chip->shown = SEND_CONFIGURATION;
        return go_to(chip, CONFIGURATION_DATA);
    }
    chip->shown = SEND_NOTHING;
    return go_to(chip, (chip->high & LOCK_MASK) == LOCK_PATTERN ? LOCK_DATA : LOST_DATA);
}

/* [Data] The counter's low part goes round the page; nothing is stored yet. */
static void load_byte(struct chip *chip, unsigned *counter, byte b)
{
    unsigned page = chip->part->page;
    unsigned place = modulo(*counter, page);
    chip->load[place] = b;
    chip->loaded[place] = 1;
    *counter = *counter - place + modulo(place + 1, page);
}

static bool take_data(struct chip *chip, byte b)
{
    if (chip->phase == ARRAY_DATA)
        load_byte(chip, &chip->array_counter, b);
    else if (chip->phase == SECURITY_DATA)
        load_byte(chip, &chip->security_counter, b);
    else if (chip->data_bytes < CONFIGURATION_BYTES)
        chip->sent[chip->data_bytes] = b;
    if (chip->data_bytes < MANY_BYTES)
        chip->data_bytes++;
    return 1;
}

static bool chip_take(struct chip *chip, byte b)
{
    switch (chip->phase) {
    case ADDRESS:
        return take_address(chip, b);
    case ID_ADDRESS:
        return take_id_address(chip, b);
    case ARRAY_HIGH:
        chip->high = b;
        return go_to(chip, ARRAY_LOW);
    case ARRAY_LOW:
        return take_array_low(chip, b);
    case REGISTER_HIGH:
        return take_register_high(chip, b);
    case REGISTER_LOW:
        return take_register_low(chip, b);
    case ARRAY_DATA:
    case SECURITY_DATA:
    case CONFIGURATION_DATA:
    case LOCK_DATA:
    case LOST_DATA:
        return take_data(chip, b);
    default: /* standby or busy: the bus lets no byte through while a chip sends */
        return 0;
    }
}

/* ---- A byte that the host reads */

/* [Read] From the last address to 0; also [Configuration], where byte 0 follows byte 1, and [Device ID] (request E5),
   whose three bytes are no power of two. */
static byte send_next(const byte *memory, unsigned size, unsigned *counter)
{
    byte b = memory[*counter];
    *counter = *counter + 1 < size ? *counter + 1 : 0;
    return b;
}

static byte chip_send(struct chip *chip)
{
    switch (chip->phase) {
    case SEND_ARRAY:
        return send_next(chip->array, chip->part->array, &chip->array_counter);
    case SEND_SECURITY:
        return send_next(chip->security, chip->part->security, &chip->security_counter);
    case SEND_CONFIGURATION:
        return send_next(chip->configuration, CONFIGURATION_SIZE, &chip->place);
    case SEND_ID:
        return send_next(chip->part->id, ID_SIZE, &chip->place);
    default:
        return NO_BYTE;
    }
}

/* ---- Stop. Each of these tells whether a write cycle starts. */

/* [Protection], sheets 6.6 */
static bool is_protected(const struct chip *chip)
{
    unsigned zone = chip->array_counter / chip->part->zone;

    if (chip->configuration[0] & EWPM_BIT)
        return chip->configuration[1] >> zone & 1;
    return chip->wp;
}

/* [Stop] The loaded bytes go to the page that the counter lies in; the others on it stay. */
static void store_load(const struct chip *chip, byte *memory, unsigned counter)
{
    byte *page = memory + (counter - modulo(counter, chip->part->page));
    for (unsigned place = 0; place < chip->part->page; place++) {
        if (chip->loaded[place])
            page[place] = chip->load[place];
    }
}

static bool store_array(struct chip *chip)
{
    if (chip->data_bytes == 0 || is_protected(chip))
        return 0;
    store_load(chip, chip->array, chip->array_counter);
    return 1;
}

/* [Security register] The read-only half never changes, nor a locked ID page; WP does not act. */
static bool store_security(struct chip *chip)
{
    bool in_id_page = chip->security_counter >= chip->part->read_only;

    if (chip->data_bytes == 0 || !in_id_page || chip->id_page_locked)
        return 0;
    store_load(chip, chip->security, chip->security_counter);
    return 1;
}

/* [Configuration] Exactly three bytes, the third confirming the new LOCK; nothing once locked. */
static bool store_configuration(struct chip *chip)
{
    byte confirmation = chip->sent[0] & LOCK_BIT ? CONFIRM_LOCKED : CONFIRM_UNLOCKED;

    if (chip->data_bytes != CONFIGURATION_BYTES || chip->sent[2] != confirmation)
        return 0;
    if (chip->configuration[0] & LOCK_BIT)
        return 0;
    chip->configuration[0] = chip->sent[0] & WRITABLE_BITS;
    chip->configuration[1] = chip->sent[1];
    return 1;
}

/* Sheets 10.4.1: the data bytes have to be sent, whatever they are. */
static bool lock_id_page(struct chip *chip)
{
    if (chip->data_bytes == 0)
        return 0;
    chip->id_page_locked = 1;
    return 1;
}

static bool ends_in_cycle(struct chip *chip)
{
    switch (chip->phase) {
    case ARRAY_DATA:
        return store_array(chip);
    case SECURITY_DATA:
        return store_security(chip);
    case CONFIGURATION_DATA:
        return store_configuration(chip);
    case LOCK_DATA:
        return lock_id_page(chip);
    default:
        return 0;
    }
}

/* [Stop] */
static void chip_stop(struct chip *chip)
{
    if (chip->phase == BUSY)
        return;
    chip->phase = ends_in_cycle(chip) ? BUSY : STANDBY;
    chip->chosen = 0;
    drop_load(chip);
}

/* [Power up] The stores, the registers and the level of WP stay. */
static void chip_power_up(struct chip *chip)
{
    drop_load(chip);
    chip->phase = STANDBY;
    chip->chosen = 0;
    chip->shown = SEND_SECURITY;
    chip->array_counter = 0;
    chip->security_counter = 0;
}

/* ---- The line [Events and replies] */

enum kind {
    START = 1,
    STOP = 2,
    SEND = 3,
    READ = 4,
    WP_LOW = 5,
    WP_HIGH = 6,
    CYCLE_OVER = 7,
    POWER_UP = 8
};

enum { HOST_ACK = 0, HOST_NACK = 1 };

/* To a byte that is sent. */
enum reply { UNANSWERED = 0, ACKNOWLEDGED = 1, OCCUPIED = 2 /* request E8 */ };

enum status {
    DONE = 0,
    BAD_COUNT = 1,
    BAD_PART = 2,
    BAD_STRAP = 3,
    SAME_ADDRESS = 4,
    BAD_KIND = 6,
    BAD_VALUE = 7,
    WRONG_DIRECTION = 8,
    BAD_LINE = 9,
    NOT_BUSY = 12 /* request E2 */
};

struct bus {
    unsigned count;
    bool started; /* a Start is remembered: a byte sent now is an address byte (request E8) */
    struct chip chips[MOST_CHIPS];
};

struct answer {
    enum status status;
    byte reply;
};

static bool any_sending(const struct bus *bus)
{
    for (unsigned k = 0; k < bus->count; k++) {
        if (is_sending(&bus->chips[k]))
            return 1;
    }
    return 0;
}

static bool any_taking(const struct bus *bus)
{
    for (unsigned k = 0; k < bus->count; k++) {
        if (is_taking(&bus->chips[k]))
            return 1;
    }
    return 0;
}

/* Request E8: whether a 1010 or 1011 byte names a chip that is busy now. */
static bool any_occupied(const struct bus *bus, byte b)
{
    for (unsigned k = 0; k < bus->count; k++) {
        const struct chip *chip = &bus->chips[k];
        if (chip->phase == BUSY && (is_named(chip, CODE_ARRAY, b) || is_named(chip, CODE_REGISTER, b)))
            return 1;
    }
    return 0;
}

/* Every chip hears the byte. Request E8: only an address byte gets 02, and an acknowledge is heard over it. */
static enum reply bus_take(struct bus *bus, byte b)
{
    bool acknowledged = 0;
    for (unsigned k = 0; k < bus->count; k++)
        acknowledged |= chip_take(&bus->chips[k], b);
    if (acknowledged)
        return ACKNOWLEDGED;
    return bus->started && any_occupied(bus, b) ? OCCUPIED : UNANSWERED;
}

/* At most one chip is sending. A NACK ends it [Read]. */
static byte bus_send(struct bus *bus, unsigned value)
{
    byte b = NO_BYTE;
    for (unsigned k = 0; k < bus->count; k++) {
        struct chip *chip = &bus->chips[k];
        if (is_sending(chip)) {
            b = chip_send(chip);
            if (value == HOST_NACK)
                chip->phase = STANDBY;
        }
    }
    return b;
}

static bool value_allowed(const struct bus *bus, unsigned kind, unsigned value)
{
    switch (kind) {
    case SEND:
        return 1;
    case READ:
        return value == HOST_ACK || value == HOST_NACK;
    case WP_LOW:
    case WP_HIGH:
    case CYCLE_OVER:
        return value < bus->count;
    default:
        return value == 0;
    }
}

/* The refusals of a step, in their order; 10 and 5 cannot occur here. */
static enum status refusal(const struct bus *bus, unsigned kind, unsigned value)
{
    if (kind < START || kind > POWER_UP)
        return BAD_KIND;
    if (!value_allowed(bus, kind, value))
        return BAD_VALUE;
    if (kind == CYCLE_OVER && bus->chips[value].phase != BUSY)
        return NOT_BUSY;
    if ((kind == SEND && any_sending(bus)) || (kind == READ && any_taking(bus)))
        return WRONG_DIRECTION;
    return DONE;
}

static void each_chip(struct bus *bus, void (*change)(struct chip *))
{
    for (unsigned k = 0; k < bus->count; k++)
        change(&bus->chips[k]);
}

/* Plays an event that is not refused, and gives the reply. */
static byte play_event(struct bus *bus, unsigned kind, unsigned value)
{
    switch (kind) {
    case START:
        each_chip(bus, chip_start);
        return 0;
    case STOP:
        each_chip(bus, chip_stop);
        return 0;
    case SEND:
        return bus_take(bus, value);
    case READ:
        return bus_send(bus, value);
    case WP_LOW:
    case WP_HIGH:
        bus->chips[value].wp = kind == WP_HIGH;
        return 0;
    case CYCLE_OVER:
        bus->chips[value].phase = STANDBY; /* [Stop] Any chip but a busy one was refused. */
        return 0;
    default: /* POWER_UP */
        each_chip(bus, chip_power_up);
        return 0;
    }
}

/* Request E8: a Start is remembered up to the next byte sent or read, Stop or power up. */
static bool keeps_start(unsigned kind)
{
    return kind >= WP_LOW && kind <= CYCLE_OVER;
}

static struct answer step(struct bus *bus, unsigned kind, unsigned value)
{
    struct answer answer = {refusal(bus, kind, value), 0};
    if (answer.status == DONE) {
        answer.reply = play_event(bus, kind, value);
        if (!keeps_start(kind))
            bus->started = kind == START;
    }
    return answer;
}

/* ---- Set-up */

struct place {
    unsigned part, strap;
};

struct board {
    unsigned count;
    struct place places[MOST_CHIPS];
};

static bool match_one_address(struct place one, struct place other)
{
    unsigned a = one.strap << parts[one.part].a16_bits;
    unsigned b = other.strap << parts[other.part].a16_bits;
    unsigned ignored = parts[one.part].a16_bits > parts[other.part].a16_bits
                           ? parts[one.part].a16_bits
                           : parts[other.part].a16_bits;
    return a >> ignored == b >> ignored;
}

/* The refusals of a set-up, in their order over all chips; 5 cannot occur here. */
static enum status board_refusal(const struct board *board)
{
    const struct place *places = board->places;

    if (board->count < 1 || board->count > MOST_CHIPS)
        return BAD_COUNT;
    for (unsigned k = 0; k < board->count; k++) {
        if (places[k].part < FIRST_PART || places[k].part > LAST_PART)
            return BAD_PART;
    }
    for (unsigned k = 0; k < board->count; k++) {
        if (places[k].strap >= parts[places[k].part].straps)
            return BAD_STRAP;
    }
    for (unsigned k = 0; k < board->count; k++) {
        for (unsigned j = 0; j < k; j++) {
            if (match_one_address(places[j], places[k]))
                return SAME_ADDRESS;
        }
    }
    return DONE;
}

/* [The two memories], [The transcript] A fresh chip k; what is not set here is 0 already. */
static void chip_set_up(struct chip *chip, struct place place, unsigned k)
{
    chip->part = &parts[place.part];
    chip->strap = place.strap;
    chip->phase = STANDBY;
    chip->shown = SEND_SECURITY;
    memset(chip->array, 0xFF, chip->part->array);
    memset(chip->security, 0xFF, chip->part->security);
    if (chip->part->registers)
        memset(chip->security, 0x10 + k, SERIAL_SIZE);
}

static enum status set_up(struct bus *bus, const struct board *board)
{
    enum status status = board_refusal(board);

    if (status != DONE)
        return status;
    bus->count = board->count;
    for (unsigned k = 0; k < board->count; k++)
        chip_set_up(&bus->chips[k], board->places[k], k);
    return DONE;
}

/* ---- The transcript [The transcript] */

enum {
    BLOCK = 4096,
    DIGITS = 4,
    LINE_SIZE = DIGITS + 1,
    ANSWER_SIZE = 2 * DIGITS + 1,
    MOST_ANSWERS = BLOCK / LINE_SIZE + 2, /* the lines that a block can end, and a refusal */
    NO_DIGIT = -1,
    STANDARD_INPUT = 0,
    STANDARD_OUTPUT = 1,
    STANDARD_ERROR = 2,
    EXIT_DONE = 0,
    EXIT_FAILED = 1,
    EXIT_USAGE = 2
};

enum { NOT_AN_EVENT = 0xFFFF }; /* stands for kind and value where there is none */

static struct bus bus; /* large, so not on the stack */

struct answers {
    unsigned size;
    char text[MOST_ANSWERS * ANSWER_SIZE];
};

/* The part of a line that has come. */
struct line {
    unsigned digits;
    unsigned number;
};

/* One more than the value of each byte as a digit; 0 for a byte that is none. */
static const signed char digit_table[256] = {
    ['0'] = 1, ['1'] = 2,  ['2'] = 3,  ['3'] = 4,  ['4'] = 5,  ['5'] = 6,  ['6'] = 7,  ['7'] = 8,
    ['8'] = 9, ['9'] = 10, ['A'] = 11, ['B'] = 12, ['C'] = 13, ['D'] = 14, ['E'] = 15, ['F'] = 16,
};

static int digit_value(char c)
{
    return digit_table[(byte)c] - 1;
}

static void print_word(char *to, unsigned word)
{
    static const char digits[] = "0123456789ABCDEF";
    to[0] = digits[word >> 12 & 0xF];
    to[1] = digits[word >> 8 & 0xF];
    to[2] = digits[word >> 4 & 0xF];
    to[3] = digits[word & 0xF];
}

static void print_answer(struct answers *out, unsigned event, struct answer answer)
{
    char *to = out->text + out->size;
    print_word(to, event);
    print_word(to + DIGITS, answer.status << 8 | answer.reply);
    to[ANSWER_SIZE - 1] = '\n';
    out->size += ANSWER_SIZE;
}

static void print_refusal(struct answers *out, enum status status)
{
    struct answer answer = {status, 0};
    print_answer(out, NOT_AN_EVENT, answer);
}

/* Tells whether all of it was written. */
static bool write_all(const struct answers *out)
{
    unsigned done = 0;
    while (done < out->size) {
        long wrote = write(STANDARD_OUTPUT, out->text + done, out->size - done);
        if (wrote <= 0)
            return 0;
        done += wrote;
    }
    return 1;
}

/* Takes one byte of the transcript; tells whether it can stand where it stands. */
static bool take_character(struct line *line, struct answers *out, char c)
{
    if (line->digits < DIGITS) {
        int value = digit_value(c);
        if (value == NO_DIGIT)
            return 0;
        line->number = line->number << 4 | (unsigned)value;
        line->digits++;
        return 1;
    }
    if (c != '\n')
        return 0;
    print_answer(out, line->number, step(&bus, line->number >> 8, line->number & 0xFF));
    line->digits = 0;
    line->number = 0;
    return 1;
}

/* Plays a block of the transcript; tells whether it was well formed as far as it goes. */
static bool play_block(struct line *line, struct answers *out, const char *block, long size)
{
    for (long i = 0; i < size; i++) {
        if (!take_character(line, out, block[i]))
            return 0;
    }
    return 1;
}

/* What has been read is answered before more is waited for. */
static int play_transcript(void)
{
    struct line line = {0, 0};
    for (;;) {
        char block[BLOCK];
        struct answers out;
        long size = read(STANDARD_INPUT, block, BLOCK);
        bool well_formed;

        if (size < 0)
            return EXIT_FAILED;
        out.size = 0;
        if (size > 0)
            well_formed = play_block(&line, &out, block, size);
        else
            well_formed = line.digits == 0; /* the last line has its LF */
        if (!well_formed)
            print_refusal(&out, BAD_LINE);
        if (!write_all(&out))
            return EXIT_FAILED;
        if (size == 0 || !well_formed)
            return EXIT_DONE;
    }
}

/* ---- The program */

/* Reads a word PART:STRAP. */
static bool read_place(const char *word, struct place *place)
{
    int part = digit_value(word[0]);
    if (part == NO_DIGIT || word[1] != ':')
        return 0;
    int strap = digit_value(word[2]);
    if (strap == NO_DIGIT || word[3] != '\0')
        return 0;
    place->part = (unsigned)part;
    place->strap = (unsigned)strap;
    return 1;
}

static bool read_board(int words, char **word, struct board *board)
{
    if (words > MOST_CHIPS)
        return 0;
    board->count = (unsigned)words;
    for (int k = 0; k < words; k++) {
        if (!read_place(word[k], &board->places[k]))
            return 0;
    }
    return 1;
}

static int complain(void)
{
    static const char expected[] =
        "bench: expected one to four words PART:STRAP, each one digit 0-9 A-F, as 1:0 2:5, or none\n";
    write(STANDARD_ERROR, expected, sizeof expected - 1);
    return EXIT_USAGE;
}

int main(int argc, char **argv)
{
    static const struct board paper_board = {3, {{2, 0}, {2, 1}, {2, 2}}};
    struct board board = paper_board;

    if (argc > 1 && !read_board(argc - 1, argv + 1, &board))
        return complain();
    enum status status = set_up(&bus, &board);
    if (status != DONE) {
        struct answers out;
        out.size = 0;
        print_refusal(&out, status);
        return write_all(&out) ? EXIT_DONE : EXIT_FAILED;
    }
    return play_transcript();
}
