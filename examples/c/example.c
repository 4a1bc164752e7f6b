/*
 * From a set to a running sign, through include/bractbeacon.h: frames, line states, a run on three devices, what comes
 * back, the wait for their boundary, the comparison, the light, a line that stops, the current; and what is different
 * with 16 outputs.
 * Prints what came out and exits with 1 where it is not what docs/RULES.md says.
 *
 *   tools/library
 *   gcc -std=c11 -Wall -Wextra -Iinclude examples/c/example.c -Ltarget/staticlib -lbractbeacon -o target/example
 */
#include <stdio.h>
#include <string.h>

#include "bractbeacon.h"

/* CLOCKS are those of a subframe of the part, and FRAME those of its 128 subframes. */
enum { DEVICES = 3, PART = 6974, CONFIGURATION = 0x00, GLOBAL = 96, VALUE = 2560, CLOCKS = 4096, FRAME = 524288 };

/* The watchdog: the configuration bit that enables it, and after how many still clocks it blanks a device. */
enum { WATCH_BIT = 1, WATCH_LIMIT = 10000 };

_Static_assert(sizeof(struct bb_line) == 16, "a line's size");
_Static_assert(sizeof(struct bb_watch) == 40, "a watchdog's size");
_Static_assert(sizeof(struct bb_device) == 360, "a record's size");

static const uint64_t TAIL = 0xA5;
static const uint32_t TAIL_LENGTH = 8;

/* The order of a restore: configuration first, since it says how long individual slices are. */
static const uint8_t RESTORE[4] = {BB_CONFIGURATION, BB_CALIBRATION, BB_GLOBAL, BB_INDIVIDUAL};
static const char *const NAMES[4] = {"individual", "calibration", "global", "configuration"};

static int mismatches = 0;

static void expect(const char *what, int holds)
{
    if (!holds) {
        printf("MISMATCH: %s\n", what);
        mismatches++;
    }
}

static void print_bytes(const char *what, const uint8_t *bytes, size_t length)
{
    printf("%s:", what);
    for (size_t i = 0; i < length && i < 12; i++)
        printf(" %02X", bytes[i]);
    printf(length > 12 ? " ... (%zu bytes)\n" : "\n", length);
}

/* The values of a sign. */
struct set {
    uint8_t calibration[3 * DEVICES];
    uint16_t individual[24 * DEVICES];
};

static uint8_t byte_of(uint8_t command)
{
    return command == BB_GLOBAL ? GLOBAL : CONFIGURATION;
}

/* Writes the set's frame of a command; its number of bytes. */
static size_t write_frame(const struct set *set, uint8_t command, size_t devices, uint64_t tail, uint32_t tail_length,
                          uint8_t *out, size_t room)
{
    struct bb_answer written =
        bb_write(PART, devices, command, CONFIGURATION, tail, tail_length, byte_of(command), set->calibration,
                 3 * devices, set->individual, 24 * devices, out, room);
    expect("the frame is accepted", written.refusal == 0);
    return written.value;
}

/* The frames of one device among docs/RULES.md, "Numbers to hold against": a, c, d, e and h. */
static void frames_of_one(const struct set *set)
{
    static const uint8_t a[] = {0xE8, 0xFC, 0x00, 0x00, 0x00, 0x00};
    static const uint8_t c[] = {0xE8, 0x54, 0x00, 0xA9, 0x10, 0x01};
    static const uint8_t d[] = {0xE8, 0xA8, 0x00, 0x60, 0x60, 0x60};
    static const uint8_t e[] = {0xE8, 0x00, 0x00, 0xA0, 0x0A, 0x00};
    static const uint8_t h[] = {0xE8, 0xFC, 0x00, 0x00, 0x00, 0x00, 0xA0};
    static const uint8_t *const expected[4] = {e, c, d, a};
    uint8_t frame[64];

    for (int i = 0; i < 4; i++) {
        uint8_t command = RESTORE[i];
        size_t length = write_frame(set, command, 1, 0, 0, frame, sizeof frame);
        print_bytes(NAMES[command], frame, length);
        expect(NAMES[command], length >= 6 && memcmp(frame, expected[command], 6) == 0);
    }
    size_t length = write_frame(set, BB_CONFIGURATION, 1, 5, 3, frame, sizeof frame);
    expect("frame h", length == sizeof h && memcmp(frame, h, sizeof h) == 0);
    frame[6] = 0xA1;
    uint8_t bytes[3];
    uint16_t values[24];
    struct bb_answer read =
        bb_read(PART, 1, BB_CONFIGURATION, CONFIGURATION, 5, 3, frame, length, bytes, 3, values, 24);
    printf("last byte A1: refused %u\n", read.refusal);
    expect("an unused bit is refused with 11", read.refusal == BB_REFUSED_UNUSED_BIT);
}

/* Sends one frame down the chain and reads what comes back; the count. */
static uint64_t send(const struct set *set, struct bb_device *chain, uint8_t command)
{
    uint8_t frame[512], states[4096], returned[4096], back[16];
    size_t length = write_frame(set, command, DEVICES, TAIL, TAIL_LENGTH, frame, sizeof frame);
    size_t bits = 24 + DEVICES * bb_slice_bits(command, PART, CONFIGURATION).value + TAIL_LENGTH;
    struct bb_answer on_line = bb_states(frame, length, bits, BB_EXACT, states, sizeof states);
    expect("the frame has states", on_line.refusal == 0 && on_line.value == bits);
    struct bb_answer sent = bb_run(chain, DEVICES, states, on_line.value, returned, sizeof returned);
    expect("the run is accepted", sent.refusal == 0);
    struct bb_answer packed = bb_data_bytes(returned, sent.value, back, sizeof back);
    expect("what came back is packed", packed.refusal == 0);
    struct bb_answer count = bb_read_return(PART, DEVICES, command, TAIL, TAIL_LENGTH, back, packed.value);
    expect("the return is accepted", count.refusal == 0);
    print_bytes("returned", back, packed.value);
    return count.value;
}

/* Gives the chain clocks at low load, with which every position goes up and nothing is sent. */
static void give_low_clocks(struct bb_device *chain, uint64_t clocks)
{
    static const uint8_t low[CLOCKS];
    uint8_t returned[CLOCKS + 23];

    while (clocks > 0) {
        size_t piece = clocks < CLOCKS ? (size_t)clocks : CLOCKS;
        struct bb_answer sent = bb_run(chain, DEVICES, low, piece, returned, sizeof returned);
        expect("low clocks send nothing", sent.refusal == 0 && sent.value == 0);
        clocks -= piece;
    }
}

/* How many clocks it is until every position has next returned to 0: at most FRAME. */
static uint64_t clocks_to_boundary(const struct bb_device *chain)
{
    uint64_t most = 0;
    for (int i = 0; i < DEVICES; i++) {
        uint64_t clocks = FRAME - chain[i].registers.position;
        most = clocks > most ? clocks : most;
    }
    return most;
}

/* Example g and demand 3: two open LEDs, a whole restore, a wait, and then the chain runs the set. */
static void restore(const struct set *set, struct bb_device *chain)
{
    expect("D4 is GLB4", bb_fresh(chain, DEVICES, PART, 4, WATCH_LIMIT) == BB_REFUSED_POSITION_OR_RECORD);
    expect("fresh", bb_fresh(chain, DEVICES, PART, WATCH_BIT, WATCH_LIMIT) == 0);
    expect("open LED", bb_set_fault(chain, DEVICES, 1, BB_OPEN_LED, 1) == 0);
    expect("open LED", bb_set_fault(chain, DEVICES, 3, BB_OPEN_LED, 1) == 0);
    expect("no device 4", bb_set_fault(chain, DEVICES, 4, BB_OPEN_LED, 1) == BB_REFUSED_POSITION_OR_RECORD);
    for (int i = 0; i < 4; i++) {
        uint8_t command = RESTORE[i];
        uint64_t count = send(set, chain, command);
        printf("%s: %u faults\n", NAMES[command], (unsigned)count);
        expect("C0 = 1 counts open LEDs", count == (command & 1 ? 2u : 0u));
    }
    struct bb_compared before = bb_compare(PART, DEVICES, CONFIGURATION, set->calibration, 3 * DEVICES, GLOBAL,
                                           set->individual, 24 * DEVICES, chain, DEVICES);
    printf("before the boundary: device %u, group %u, place %u\n", (unsigned)before.device, before.group, before.place);
    expect("the global byte still waits", before.device == 1 && before.group == BB_IN_ACTIVE_GLOBAL);
    uint64_t clocks = clocks_to_boundary(chain);
    printf("low clocks to the boundary: %u\n", (unsigned)clocks);
    give_low_clocks(chain, clocks);
    expect("at the boundary", chain[0].registers.position == 0);
    struct bb_compared after = bb_compare(PART, DEVICES, CONFIGURATION, set->calibration, 3 * DEVICES, GLOBAL,
                                          set->individual, 24 * DEVICES, chain, DEVICES);
    expect("same", after.refusal == 0 && after.group == BB_SAME);
    expect("the last value", chain[2].registers.active0[23] == VALUE);
}

/* Examples i, j and k. */
static void light(const struct bb_device *chain)
{
    static const uint64_t on[5] = {0, 1, 1, 1, 0};
    for (uint32_t s = 0; s < 5; s++)
        expect("subframes 0 and 4 are off, 1 to 3 ON", bb_on(PART, CONFIGURATION, GLOBAL, s).value == on[s]);
    struct bb_signed one = bb_lead(PART, CONFIGURATION, GLOBAL, 0, 1);
    struct bb_signed three = bb_lead(PART, CONFIGURATION, GLOBAL, 1, 3);
    printf("leads: %d, %d\n", (int)one.value, (int)three.value);
    expect("leads", one.value == -97 && three.value == 93);

    unsigned even = 0, odd = 0;
    for (uint32_t clock = 0; clock < 4096; clock++) {
        uint64_t r0 = bb_device_lit(chain[0], 23, 1, clock, 0).value;
        uint64_t b7 = bb_device_lit(chain[0], 0, 1, clock, 0).value;
        expect("R0 is lit at 16 to 2559", r0 == (clock >= 16 && clock <= 2559));
        expect("B7 is lit at 1536 to 4079", b7 == (clock >= 1536 && clock <= 4079));
        even += (unsigned)r0;
        odd += (unsigned)b7;
    }
    printf("lit clocks in subframe 1: R0 %u, B7 %u\n", even, odd);
    struct bb_clocks run = bb_device_lit_clocks(chain[0], 23, 1, 0);
    printf("R0 in subframe 1: clocks %u to %u\n", (unsigned)run.first, (unsigned)run.end - 1);
    expect("the run of R0 is 16 to 2559", run.refusal == 0 && run.first == 16 && run.end == 2560);
    struct bb_clocks none = bb_lit_clocks(6975, 0, 31, 32, 23, 0, 0);
    expect("a 6975 with value 32: R0 at no clock", none.refusal == 0 && none.first == 0 && none.end == 0);
    expect("a 6975 with value 33: R0 at 32", bb_lit(6975, 0, 31, 33, 23, 0, 32, 0).value == 1);
    expect("nonmultiplexed, phase MUX1 is 13",
           bb_lit(6975, 0, 31, 33, 23, 0, 32, 1).refusal == BB_REFUSED_POSITION_OR_RECORD);
}

/* What is lit now: from the beginning of a frame of light the chain is given clocks up to the first with R0 lit. */
static void light_now(struct bb_device *chain)
{
    struct bb_shown_now now = bb_lit_now(chain, DEVICES, 3, 23);
    expect("R0 is dark in subframe 0", now.refusal == 0 && now.lit == 0 && now.phase == 0);
    give_low_clocks(chain, CLOCKS + 15);
    expect("dark at clock 15 of subframe 1", bb_lit_now(chain, DEVICES, 3, 23).lit == 0);
    give_low_clocks(chain, 1);
    now = bb_lit_now(chain, DEVICES, 3, 23);
    printf("position %u: R0 %s\n", (unsigned)chain[2].registers.position, now.lit ? "lit" : "dark");
    expect("lit at clock 16", now.refusal == 0 && now.lit == 1 && now.phase == 0);
    expect("there is no device 4", bb_lit_now(chain, DEVICES, 4, 23).refusal == BB_REFUSED_POSITION_OR_RECORD);
}

/* Sends all devices a configuration; the lists of the set are ignored. */
static void configure(const struct set *set, struct bb_device *chain, uint8_t byte)
{
    uint8_t frame[64], states[256], returned[512];
    struct bb_answer written = bb_write(PART, DEVICES, BB_CONFIGURATION, byte, 0, 0, byte, set->calibration, 0,
                                        set->individual, 0, frame, sizeof frame);
    expect("the configuration is accepted", written.refusal == 0);
    size_t bits = 24 + DEVICES * bb_slice_bits(BB_CONFIGURATION, PART, byte).value;
    struct bb_answer on_line = bb_states(frame, written.value, bits, BB_EXACT, states, sizeof states);
    expect("the run is accepted",
           bb_run(chain, DEVICES, states, on_line.value, returned, sizeof returned).refusal == 0);
}

/* The number of devices that have a value in use. */
static unsigned count_shown(const struct bb_device *chain)
{
    unsigned shown = 0;
    for (int i = 0; i < DEVICES; i++)
        shown += chain[i].registers.active0[0] != 0;
    return shown;
}

/* A line that stops: with the watchdog's bit clear the page stays, with it set the sign is blank after the limit. */
static void stopped_line(const struct set *set, struct bb_device *chain)
{
    give_low_clocks(chain, WATCH_LIMIT + 1);
    expect("the watchdog is off", count_shown(chain) == DEVICES);
    configure(set, chain, CONFIGURATION | 1 << WATCH_BIT);
    give_low_clocks(chain, WATCH_LIMIT - 200);
    expect("the page is still there", count_shown(chain) == DEVICES);
    give_low_clocks(chain, 200 + 1);
    printf("after %u still clocks: %u devices with a page\n", (unsigned)WATCH_LIMIT + 1, count_shown(chain));
    expect("blank", count_shown(chain) == 0);
    expect("the global byte stays", chain[0].registers.active == GLOBAL);
}

/* What the set draws: an eighth of a microamp is 1/8000 mA. */
static void current(const struct set *set)
{
    uint64_t figures[3 * DEVICES];
    struct bb_sign_current sign = bb_current(PART, DEVICES, CONFIGURATION, set->calibration, 3 * DEVICES, GLOBAL,
                                             set->individual, 24 * DEVICES, figures, 3 * DEVICES);
    expect("the set is accepted", sign.refusal == 0);
    for (int i = 0; i < DEVICES; i++) {
        const uint64_t *device = figures + 3 * i;
        expect("a device", device[0] == 559669824000 && device[1] == 1067485 && device[2] == 248320);
    }
    printf("current: %.3f mA\n", (double)sign.average / 8000);
    expect("the sign", sign.total == 1679009472000 && sign.average == 3202456 && sign.remainder == 220672);
    struct bb_sign_current refused = bb_current(PART, DEVICES, CONFIGURATION, set->calibration, 3 * DEVICES, GLOBAL,
                                                set->individual, 24 * DEVICES, figures, 3 * DEVICES - 1);
    expect("three numbers for each device", refused.refusal == BB_REFUSED_ROOM && refused.total == 0);
}

/* A part of two banks, Z and Y: two calibration bytes, two copies of a byte, 16 outputs. */
static void sixteen_outputs(void)
{
    static const uint8_t calibration[] = {0xE8, 0x54, 0x00, 0xA9, 0x10};
    static const uint8_t global[] = {0xE8, 0xA8, 0x00, 0x60, 0x60};
    static const uint8_t zy[2] = {0xA9, 0x10};
    static const uint16_t values[16];
    uint8_t frame[32];

    struct bb_answer written =
        bb_write(6972, 1, BB_CALIBRATION, 0, 0, 0, 0, zy, sizeof zy, values, 16, frame, sizeof frame);
    print_bytes("calibration of a 6972", frame, written.value);
    expect("Z, Y", written.value == sizeof calibration && memcmp(frame, calibration, sizeof calibration) == 0);
    written = bb_write(6972, 1, BB_GLOBAL, 0, 0, 0, GLOBAL, zy, sizeof zy, values, 16, frame, sizeof frame);
    expect("two copies", written.value == sizeof global && memcmp(frame, global, sizeof global) == 0);
    written = bb_write(6972, 1, BB_INDIVIDUAL, 0, 0, 0, 0, zy, sizeof zy, values, 16, frame, sizeof frame);
    expect("16 values of 12 bits", written.refusal == 0 && written.value == 3 + 24);
    expect("Y0 is an output", bb_lit(6972, 0, 127, VALUE, 15, 0, 0, 0).refusal == 0);
    expect("there is no output 16",
           bb_lit(6972, 0, 127, VALUE, 16, 0, 0, 0).refusal == BB_REFUSED_POSITION_OR_RECORD);
}

int main(void)
{
    struct set set;
    struct bb_device chain[DEVICES];

    memset(chain, 0xFF, sizeof chain);
    for (int i = 0; i < DEVICES; i++) {
        static const uint8_t bgr[3] = {0xA9, 0x10, 0x01};
        memcpy(set.calibration + 3 * i, bgr, 3);
    }
    for (int i = 0; i < 24 * DEVICES; i++)
        set.individual[i] = VALUE;

    frames_of_one(&set);
    restore(&set, chain);
    light(chain);
    light_now(chain);
    stopped_line(&set, chain);
    current(&set);
    sixteen_outputs();
    printf("%s\n", mismatches == 0 ? "all as docs/RULES.md says" : "not as docs/RULES.md says");
    return mismatches != 0;
}
