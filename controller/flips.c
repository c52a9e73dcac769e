/* Flips each bit of what the example firmware keeps in memory, one at a time, in the middle of a run, and prints what comes of it, as the
 * rows of controller/README.md. The firmware is included, so that its variables are at hand. The port below hands it the words, flips a bit
 * while it waits for one, and compares its ticks with those of the run without a flip. Ends well where none goes on with a wrong tick. */
#define main firmware
#define fault firmware_fault
#include "firmware/firmware.c"
#undef main
#undef fault

#include "host.h"
#include "processor.h"

/* A run has so many ticks. A bit is flipped before each of some ticks from FIRST on, one in each run, so many as the table has parts:
 * before each of them another part is the next. A call, a return and a home tick are among those that follow. */
enum { RUN = 64, FIRST = 13 };

/* What came of a flip: the firmware stopped before it made a tick on what had changed, after ticks that were right, or after a wrong one;
 * the run was right to its end; or it stopped too late or never. */
enum { AT_ONCE, AFTER_RIGHT, AFTER_WRONG, HARMLESS, MISSED, OUTCOMES };

static const struct {
    const char *name;
    uint8_t *bytes;
    int alone; /* the library's calls alone, without the firmware */
} rows[] = {
    {"the table", table, 0},
    {"the state", (uint8_t *)&state, 0},
    {"the sums and the next part", (uint8_t *)&sums, 0},
    {"the table's length", (uint8_t *)&table_length, 0},
    {"the table, with nothing compared", table, 1},
    {"the state, with nothing compared", (uint8_t *)&state, 1},
};
enum { ROWS = sizeof rows / sizeof rows[0] };

/* The ticks of the run without a flip. */
static struct {
    uint32_t mask;
    uint8_t code;
} whole[RUN];
static int is_whole; /* it has been made */

static size_t parts, whole_length, row, bit;
static uint32_t moment;
static uint32_t outcomes[OUTCOMES];
static int missed;

/* Of the run that is made now. */
static uint32_t seen, outputs;
static uint8_t told_code;
static int wrong;

static void print(const char *text) {
    uint32_t length = 0;
    while (text[length])
        length++;
    host_write(text, length);
}

/* With a comma before the last three digits of more. */
static void print_number(uint32_t number) {
    char digits[] = {',', (char)('0' + number / 100 % 10), (char)('0' + number / 10 % 10), (char)('0' + number % 10), 0};
    if (number >= 1000) {
        print_number(number / 1000);
        print(digits);
    } else {
        print(digits + (number >= 100 ? 1 : number >= 10 ? 2 : 3));
    }
}

static void print_row(void) {
    uint32_t all = 0;
    for (int i = 0; i < OUTCOMES; i++)
        all += outcomes[i];
    print("| ");
    print(rows[row].name);
    print(" | ");
    print_number(all);
    for (int i = 0; i < OUTCOMES; i++) {
        print(" | ");
        print_number(outcomes[i]);
        outcomes[i] = 0;
    }
    print(" |\n");
}

static size_t bytes_of_row(void) {
    if (rows[row].bytes == table)
        return whole_length;
    if (rows[row].bytes == (uint8_t *)&state)
        return sizeof state;
    if (rows[row].bytes == (uint8_t *)&sums)
        return offsetof(guard, parts) + parts * sizeof sums.parts[0];
    return sizeof table_length;
}

static void flip(void) {
    rows[row].bytes[bit / 8] ^= (uint8_t)(1 << bit % 8);
}

static uint16_t word_of(uint32_t tick) {
    return (uint16_t)(tick * 2654435769u >> 16);
}

/* The run without a flip comes first. */
static void take_tick(uint32_t tick, uint32_t mask, uint8_t code) {
    if (!is_whole) {
        whole[tick].mask = mask;
        whole[tick].code = code;
    } else if (mask != whole[tick].mask || code != whole[tick].code) {
        wrong = 1;
    }
}

static int stopped_outcome(void) {
    return ticks == moment ? AT_ONCE : wrong ? AFTER_WRONG : AFTER_RIGHT;
}

/* The library alone: what stops it is a refusal. */
static int run_alone(void) {
    uint32_t mask;
    uint8_t code;
    load();
    for (; ticks < RUN; ticks++) {
        if (ticks == moment)
            flip();
        if (fairleadow_live_tick(table, table_length, &state, word_of(ticks), &mask, &code, NULL, NULL))
            return stopped_outcome();
        take_tick(ticks, mask, code);
    }
    return wrong ? MISSED : HARMLESS;
}

static void next(void);

__attribute__((noreturn)) static void end(int outcome) {
    outcomes[outcome]++;
    missed |= outcome == MISSED && !rows[row].alone;
    processor_restart(next);
}

static void begin(void) {
    ticks = seen = 0;
    wrong = 0;
    if (is_whole && rows[row].alone)
        end(run_alone());
    firmware();
}

static void next(void) {
    bit++;
    if (bit == 8 * bytes_of_row()) {
        bit = 0;
        moment++;
    }
    if (moment == FIRST + parts) {
        moment = FIRST;
        print_row();
        row++;
    }
    if (row == ROWS)
        host_end(!missed);
    begin();
}

/* A firmware that faults, or that stops without a flip, is none to try. */
void fault(void) {
    host_end(0);
}

void port_open(void) {
}

int port_next(uint16_t *word, uint8_t *number, uint8_t *scheme) {
    (void)number;
    (void)scheme;
    if (ticks == RUN && is_whole)
        end(wrong ? MISSED : HARMLESS);
    if (ticks == RUN) {
        is_whole = 1;
        whole_length = table_length;
        parts = (table_length + GUARD_PART - 1) / GUARD_PART;
        moment = FIRST;
        processor_restart(begin);
    }
    if (is_whole && ticks == moment)
        flip();
    *word = word_of(ticks);
    return PORT_WORD;
}

void port_tell(const char *text) {
    (void)text;
}

/* A tick's code is told before its outputs are set. */
void port_tell_hex(uint32_t value, int digits) {
    (void)digits;
    told_code = (uint8_t)value;
}

void port_tell_number(uint32_t value) {
    (void)value;
}

void port_set_outputs(uint32_t mask) {
    outputs = mask;
    if (seen < ticks)
        take_tick(seen++, mask, told_code);
}

/* In time, and with its outputs off: before it has made as many ticks as the table has parts. */
void port_stay(void) {
    if (!is_whole)
        host_end(0);
    end(ticks - moment < parts && outputs == 0 ? stopped_outcome() : MISSED);
}

int main(void) {
    host_open();
    begin();
    return 1;
}
