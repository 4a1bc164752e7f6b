/*
 * Bractbeacon: frames, chains, light and current of MAX6972, MAX6973, MAX6974 and MAX6975 LED drivers.
 *
 * The functions are those of the static library target/staticlib/libbractbeacon.a (`tools/library`, x86-64 Linux).
 * Each has one result and one content of every lent list, for any numbers; the library's contracts say which.
 * docs/RULES.md has all rules: what a set, a frame, a device and light are, and when each number is given.
 *
 * Parts
 *   A part is given as its number. What goes by the part is named below by the words of this table.
 *
 *                                6972        6973        6974           6975
 *   banks of eight outputs       2: Z, Y     2: Z, Y     3: B, G, R     3: B, G, R
 *   outputs                      16          16          24             24
 *   value width, bits            12          14          12             14
 *   edge zone, clocks            16          32          16             32
 *   clocks per subframe          4096        16,384      4096           16,384
 *   least current, 1/8 uA        88,000      88,000      48,000         48,000
 *   current step, 1/8 uA         1375        1375        750            750
 *
 *   A frame of light has S subframes (bb_subframes), each of which runs in MUX0 and then, multiplexed, in MUX1. So it
 *   is 524,288 clocks long; on a 6973 or 6975 with GLB4 (the configuration's D4 is 1) it is 131,072.
 *
 *   Outputs are in wire order, from 0: Z7 to Z0, Y7 to Y0; or B7 to B0, G7 to G0, R7 to R0. A device's share of a list
 *   of settings is one byte for each bank, or one value for each output, and multiplexed (the configuration's D0 is 1)
 *   two for each output, of MUX0 and then of MUX1.
 *
 * Refusals
 *   A refusal is a number of one table, BB_REFUSED_PART to BB_REFUSED_POSITION_OR_RECORD below, 0 where the call is
 *   accepted. The lowest number that applies is given. A refused call changes nothing: every lent byte, value, state
 *   and record stays as it came in, and every other number of its answer is 0.
 *
 * Lists
 *   A list is lent as two arguments, a pointer to its first element and the number of its elements. The caller owns it
 *   before, during and after the call; the library keeps no pointer, allocates nothing and holds no state, so calls on
 *   separate memory may run at the same time. A pointer is aligned for its element and never null, not even with length
 *   0, and a list that a call may write overlaps no other list of that call. Elements past what an accepted call writes
 *   stay the same. Lists of settings are in wire order, device 1 (nearest the host) first. Devices are numbered 1 to N.
 *
 * Commands
 *   A command is given as its bits C1 C0, one of the numbers below. Higher bits of the argument are ignored.
 */
#ifndef BRACTBEACON_H
#define BRACTBEACON_H

#include <stddef.h>
#include <stdint.h>

#ifdef __cplusplus
extern "C" {
#endif

/* Refusals: each is given exactly when what stands beside it holds and no lower one applies. */
enum {
    BB_REFUSED_PART = 1,        /* the part is none of 6972, 6973, 6974 and 6975 */
    BB_REFUSED_DEVICES = 2,     /* the number of devices is not 1 to 1023 */
    BB_REFUSED_TAIL_LENGTH = 3, /* the tail length is over 64 */
    BB_REFUSED_LENGTH = 4,      /* a settings list, a frame or a return has another length than its rule says; a
                                   compared chain has another number of devices or another part; records of one chain
                                   differ in part */
    BB_REFUSED_ROOM = 5,        /* the output is too short */
    BB_REFUSED_RANGE = 6,       /* an individual value, or a global byte of a set or frame, is out of range, or tail
                                   bits stand above the tail's length */
    BB_REFUSED_SYNC = 7,        /* SYNC is not 0xE8 */
    BB_REFUSED_COMMAND = 8,     /* the six command bits are not those expected */
    BB_REFUSED_COUNT = 9,       /* a host frame's count is not 0; a return's count is over the number of devices */
    BB_REFUSED_COPIES = 10,     /* copies within a slice, or global or configuration bytes of two devices, differ */
    BB_REFUSED_UNUSED_BIT = 11, /* an unused bit of the last byte is 1 */
    BB_REFUSED_TAIL = 12,       /* the tail is not the one sent */
    BB_REFUSED_POSITION_OR_RECORD = 13 /* a device number, position (subframe, clock or output), window, line state,
                                   edge (0 early, 1 exact, 2 late), fault kind (0 overtemperature, 1 open LED), phase,
                                   or a watchdog's bit or limit is out of range, or a device record holds a value over
                                   its width, something in a place that its part does not use, a position not below its
                                   frame's length, a watchdog's bit, limit, level or count out of range, or numbers that
                                   fit none of the phases below */
};

/* Commands, C1 C0. */
enum {
    BB_INDIVIDUAL = 0,
    BB_CALIBRATION = 1,
    BB_GLOBAL = 2,
    BB_CONFIGURATION = 3
};

/*
 * Edges: the bit of a frame with which load rises. Send BB_EXACT to a sign. A device takes all three, and whichever it
 * is sent, it sends the exact edge on.
 */
enum {
    BB_EARLY = 0, /* the last bit of SYNC */
    BB_EXACT = 1, /* the first command bit */
    BB_LATE = 2   /* the second command bit */
};

/* Fault kinds. */
enum {
    BB_OVERTEMPERATURE = 0,
    BB_OPEN_LED = 1
};

/*
 * Watchdog: a limit is 1 to this many clocks, and a count stops there. The bit is one of the configuration's D1, D2,
 * D3, D5, D6 and D7, by its number.
 */
enum {
    BB_MOST_STILL = 2000000
};

/* Phases of a device. */
enum {
    BB_HUNTING = 0,
    BB_OPENING = 1,
    BB_COUNTING = 2,
    BB_SLICE = 3,
    BB_PASSING = 4,
    BB_LOST = 5
};

/* Groups of a comparison, in the order in which they are compared. */
enum {
    BB_SAME = 0,
    BB_IN_CONFIGURATION = 1,
    BB_IN_CALIBRATION = 2,
    BB_IN_ACTIVE_GLOBAL = 3,
    BB_IN_ACTIVE_INDIVIDUAL = 4
};

/* A number, or a refusal. */
struct bb_answer {
    uint64_t value;  /* what was asked for; 0 where refused */
    uint8_t refusal; /* 0 where accepted */
};

/* A line that a device's watchdog watches. */
struct bb_line {
    uint64_t still; /* the count: clocks without a change, 0 to BB_MOST_STILL, where it stops */
    uint8_t level;  /* where the line stands: 0 or 1 */
};

/*
 * The watchdog of a device. It watches the data line and the load line, each by itself, while the configuration's bit
 * of the told number is 1. At the end of each clock of bb_run a line's count goes up by one where the line did not
 * change, and becomes 0 where it did, and while the bit is 0. The level follows the line all the time. Where a count is
 * then at the limit or over it, the watchdog has expired: all individual values become 0, waiting and active, of MUX0
 * and MUX1. It expires again in every further clock that finds a count so. A count that is not 0 while the bit is 0
 * fits.
 */
struct bb_watch {
    struct bb_line din;   /* the data line */
    struct bb_line loadi; /* the load line */
    uint32_t limit;       /* of both counts: 1 to BB_MOST_STILL */
    uint8_t bit;          /* the number of the configuration bit that enables it: 1, 2, 3, 5, 6 or 7 */
};

/*
 * What a device holds. Any numbers may stand in a record that a caller lends: each call judges them.
 * The arrays have places for three banks. A part of two banks uses the front of each: calibration[0] and [1], places 0
 * to 15 of the four lists of values, and slots 0 to 31 of `slice`; the places behind hold 0.
 * A record fits when both flags are 0 or 1, every value and every slot of `slice` is below 2^(value width), every place
 * that its part does not use is 0, its position is below the length of its frame of light by its own part and
 * configuration, its watchdog's numbers are in range, and its place in the frame that comes in fits its phase. Records
 * of one chain may differ in the bit and the limit of their watchdogs.
 */
struct bb_registers {
    uint16_t part;           /* 6972, 6973, 6974 or 6975 */
    uint8_t overtemperature; /* fault flag: 0 or 1 */
    uint8_t openled;         /* fault flag: 0 or 1 */
    uint8_t configuration;   /* D0 multiplex, D4 GLB4; one of the others enables the watchdog, as `watch` says */
    uint8_t calibration[3];  /* one byte for each bank: Z, Y, or B, G, R */
    uint8_t waiting;         /* global byte, until the position returns to 0 */
    uint8_t active;          /* global byte in use */
    uint16_t waiting0[24];   /* MUX0 values, until then; one for each output, in wire order */
    uint16_t waiting1[24];   /* MUX1 values likewise */
    uint16_t active0[24];    /* MUX0 values in use */
    uint16_t active1[24];    /* MUX1 values in use while D0 is 1 */
    /* The slice coming in, a slot for each field of the device's share, in wire order. A slot is a shift register: the
     * bit at position t of the slice goes to slot k = t / (bits of a field), slot = (slot * 2 + bit) modulo 2^(value
     * width) in an individual slice and modulo 256 in any other. Slots are not cleared, so bits of a slice that was cut
     * off, or of an earlier and longer one, may stand in them. A slot over 255 fits also where a calibration, global or
     * configuration slice comes in: its low 8 bits are what is stored, and what copies are compared by. */
    uint16_t slice[48];
    /* The device's position in its frame of light, in clocks: 0 when fresh. bb_run moves it, one for each state that is
     * given to the chain. Where it returns to 0, which is a frame boundary, the waiting values become active. A
     * configuration that is stored and makes the frame shorter takes it modulo the new length, which is no boundary;
     * in a longer frame it stays. */
    uint64_t position;
    struct bb_watch watch; /* the watchdog; levels and counts are 0 when fresh */
};

/*
 * Where a device is in a frame that comes in. Numbers that a phase does not use are 0.
 *   BB_HUNTING   read: the window, the last nine low bits since the last high clock as a number, below 512
 *   BB_OPENING   read: a leading one and then the command bits so far, 1 (none yet, after an early edge) to 63
 *   BB_COUNTING  command; read: a leading one and then the count bits so far, 1 to 1023
 *   BB_SLICE     command; count, below 1024; read: bits taken, below the slice's bits by command, part and own D0
 *   BB_PASSING, BB_LOST
 */
struct bb_place {
    uint8_t phase;
    uint8_t command;
    uint16_t count;
    uint16_t read;
};

/*
 * One device: a record of plain numbers. No call looks at the padding before `position`, behind a line's `level`,
 * behind the watchdog's `bit` and behind `place`.
 */
struct bb_device {
    struct bb_registers registers;
    struct bb_place place;
};

/* One step of a device. */
struct bb_stepped {
    struct bb_device device; /* the next device; the one that came in where refused */
    uint16_t count;          /* where 24 states are sent: the count in the header */
    uint8_t command;         /* where 24 states are sent: the command in the header */
    uint8_t state;           /* where one state is sent: that state */
    uint8_t sent;            /* how many states are sent on: 0, 1 or 24 */
    uint8_t refusal;
};

/* What bb_pack gives. */
struct bb_packed {
    uint64_t bytes; /* bytes written; 0 where not done */
    uint8_t done;   /* 1, or 0 where nothing was written */
};

/* A signed number, or a refusal. */
struct bb_signed {
    int32_t value; /* a lead: strictly between -S and S; 0 where refused */
    uint8_t refusal;
};

/* A run of clocks of a subframe, or a refusal. */
struct bb_clocks {
    uint32_t first; /* the first clock; 0 where there is none, and where refused */
    uint32_t end;   /* the clock after the last; 0 likewise */
    uint8_t refusal;
};

/* What is to be seen of an output now, or a refusal. */
struct bb_shown_now {
    uint8_t lit;     /* 1 where it is lit; 0 where it is not, and where refused */
    uint8_t phase;   /* 0 (MUX0) or 1 (MUX1); 0 where nonmultiplexed, and where refused */
    uint8_t refusal; /* 0 where accepted */
};

/* The first difference between a set and a chain, or a refusal. All numbers are 0 where they are the same. */
struct bb_compared {
    uint64_t device; /* 1 to N */
    uint16_t place;  /* in that device's slice, from 0; 0 for a repeated byte */
    uint8_t group;   /* BB_SAME, BB_IN_CONFIGURATION, ... */
    uint8_t refusal;
};

/* What a sign draws over 524,288 clocks, in eighths of a microamp, or a refusal. */
struct bb_sign_current {
    uint64_t total;     /* the currents of all lit sinks at each clock, added up; 0 where refused */
    uint64_t average;   /* total / 524288, rounded down; 0 where refused */
    uint64_t remainder; /* what the average leaves, below 524288; 0 where refused */
    uint8_t refusal;    /* 0 where accepted */
};

/* ---- Bits: these two are not of the table above, and their answers hold no number of it ---- */

/*
 * Packs the `width` low bits of each value, most significant first and without a gap, into `out` from the byte `at` on;
 * unused bits of the last byte become 0. Answers the number of bytes written, (count * width + 7) / 8, and 1.
 * Where the width is over 16 or `at` plus that number is over `room`, nothing is written and both are 0.
 */
struct bb_packed bb_pack(const uint16_t *values, size_t count, uint32_t width, uint8_t *out, size_t room, size_t at);

/*
 * Fills `values` with numbers of `width` bits from `bytes`, from the byte `at` on: bb_pack undone. Returns 1.
 * Where the width is over 16 or `at` plus (count * width + 7) / 8 is over `length`, nothing is written and 0 returned.
 */
uint8_t bb_unpack(const uint8_t *bytes, size_t length, size_t at, uint32_t width, uint16_t *values, size_t count);

/* ---- Parts ---- */

/* Subframes per frame, S, by part and the configuration's D0 and D4. Refused with 1. */
struct bb_answer bb_subframes(uint16_t part, uint8_t configuration);

/*
 * Bits of one device's slice by command, part and the configuration's D0: individual, the value width for each value of
 * its share; else 8 for each bank. A frame has 24 bits, N slices and its tail; packed, (bits + 7) / 8 bytes.
 * Refused with 1.
 */
struct bb_answer bb_slice_bits(uint8_t command, uint16_t part, uint8_t configuration);

/* ---- Frames ---- */

/*
 * Writes a frame into `out` and answers the number of bytes written. It is told part, number of devices, command,
 * configuration and tail (a number and its length in bits), and given its own command's values:
 *   individual     `values`, for each device one for each output, two where the configuration's D0 is 1; `byte` and
 *                  `bytes` are ignored
 *   calibration    `bytes`, for each device one for each bank; `byte` and `values` are ignored
 *   global         `byte`, which goes out once for each bank; both lists are ignored
 *   configuration  `byte`, likewise; both lists and the told configuration are ignored
 * Refusals:
 *   1, 2, 3  part, devices, tail length
 *   4        the command's list is not as long as the shares of so many devices
 *   5        `room` is below the frame's bytes
 *   6        an individual value is not below 2^width, a global byte is not below S, or tail bits stand above the
 *            tail's length
 */
struct bb_answer bb_write(uint16_t part, size_t devices, uint8_t command, uint8_t configuration, uint64_t tail,
                          uint32_t tail_length, uint8_t byte, const uint8_t *bytes, size_t bytes_length,
                          const uint16_t *values, size_t values_length, uint8_t *out, size_t room);

/*
 * Reads a host frame, told the same. Answers:
 *   individual     the number of values, which it writes to `values`; `bytes` is not touched
 *   calibration    the number of bytes, which it writes to `bytes`; `values` is not touched
 *   global         the byte; neither list is touched
 *   configuration  the byte; neither list is touched, and the told configuration is ignored
 * Refusals:
 *   1, 2, 3  part, devices, tail length
 *   4        `frame_length` is not the frame's number of bytes
 *   5        the command's lent list is too short (individual and calibration)
 *   6        a copy of a global byte is not below S, or bits of the told tail stand above its length
 *   7 to 9   SYNC, command bits, count not 0
 *   10       global or configuration: two of the bytes differ, in one slice or in two
 *   11, 12   an unused bit of the last byte is 1; the tail is not the told one
 */
struct bb_answer bb_read(uint16_t part, size_t devices, uint8_t command, uint8_t configuration, uint64_t tail,
                         uint32_t tail_length, const uint8_t *frame, size_t frame_length, uint8_t *bytes,
                         size_t bytes_length, uint16_t *values, size_t values_length);

/*
 * Reads what came back from the last device, packed as a frame is, and answers its count of faults.
 * Refusals:
 *   1, 2, 3  part, devices, tail length
 *   4        `length` is not (24 + tail_length + 7) / 8
 *   6        bits of the told tail stand above its length
 *   7 to 9   SYNC, command bits, count over the number of devices
 *   11, 12   an unused bit of the last byte is 1; the tail is not the told one
 */
struct bb_answer bb_read_return(uint16_t part, size_t devices, uint8_t command, uint64_t tail, uint32_t tail_length,
                                const uint8_t *bytes, size_t length);

/* ---- From bytes to line states and back ---- */

/*
 * Gives the line states of a packed frame of `bits` bits that is sent with an edge, BB_EXACT to a sign: the first 7
 * (BB_EARLY), 8 (BB_EXACT) or 9 (BB_LATE) bits at low load, the rest at high; a frame with no more bits is all at low.
 * Answers the number of states written, `bits`. Unused bits of the last byte are not looked at.
 * Refused with 4 where `frame_length` is not (bits + 7) / 8, with 5 where `room` is below `bits`, and with 13 where
 * `edge` is over 2.
 */
struct bb_answer bb_states(const uint8_t *frame, size_t frame_length, size_t bits, uint8_t edge, uint8_t *states,
                           size_t room);

/*
 * Packs the data bits of line states as bb_read_return takes them, and answers the number of bytes written,
 * (count + 7) / 8. Refused with 5 where `room` is below that, and with 13 where a state is over 3.
 */
struct bb_answer bb_data_bytes(const uint8_t *states, size_t count, uint8_t *out, size_t room);

/* ---- One device, by value ---- */

/* The refusal of a record: 1 for its part, 13 where it does not fit, else 0. */
uint8_t bb_judge(struct bb_device device);

/*
 * One step with the line state `state`, 0 to 3: data bit plus twice the load bit. Gives the next device and what it
 * sends on: nothing (`sent` 0), the state itself (1), or the 24 states of a header (24): SYNC 0xE8 at low load, then
 * C1 C0 three times and the ten bits of the count at high load, each most significant bit first. The position does not
 * move, but for a configuration that is stored and makes the frame shorter: a device advances only in bb_run. There too
 * its watchdog watches: a step leaves its levels and counts as they are, and clears nothing.
 * Refused with 1 for the record's part, with 13 where the record does not fit or the state is over 3. A refused step
 * gives `device` as it came in, sends nothing, and every number beside `device` and `refusal` is 0.
 */
struct bb_stepped bb_step(struct bb_device device, uint8_t state);

/* ---- A chain: a lent list of records, changed in place ---- */

/*
 * Every call that is lent a chain judges it: 1 for a record whose part is unknown, 2 for a number of records that
 * is not 1 to 1023, 4 where records differ in part, 13 where a record does not fit. bb_fresh alone takes the records
 * whatever they hold. Those that return a number return the refusal, 0 where accepted.
 */

/*
 * Makes a chain fresh: zeros, position 0, no faults, hunting, all of the told part. Each record keeps the told bit and
 * limit of its watchdog, whose levels and counts are 0. A fresh configuration is 0, so that the watchdog is off until a
 * configuration with that bit is stored. It is off for good where no configuration that is sent has the bit.
 * Refused with 1 and 2, and with 13 where `bit` is none of 1, 2, 3, 5, 6 and 7 or `limit` is not 1 to BB_MOST_STILL.
 */
uint8_t bb_fresh(struct bb_device *devices, size_t count, uint16_t part, uint8_t bit, uint32_t limit);

/*
 * Gives the chain line states, one to a clock, and answers how many states the last device sent; they stand in
 * `returned`. In a clock
 *   1. every device of the chain advances: its position goes up by one, modulo the length of its frame of light; where
 *      it returns to 0, the waiting global byte and values, of MUX0 and MUX1, become the active ones;
 *   2. then the state acts: it goes to device 1, what device 1 sends to device 2, and so on. States sent on advance no
 *      device;
 *   3. then every device watches its lines, by what it was sent in this clock (nothing, one state, or the 24 of a
 *      header) and by the configuration that it now holds. Levels follow the last state; a device that is sent nothing
 *      keeps its levels, and its counts go on. A header changes both lines, also where it ends at the levels before it.
 *      Where a count is then at its limit or over it, all individual values of that device become 0, also those that
 *      became active or were stored in this clock; nothing else of it changes.
 * Where a device stores with the clock of its boundary, what waited until then becomes active, and what is stored
 * waits. A set is in use once its four frames were given and then every position has next returned to 0. That takes,
 * for each device, its frame's length less its position in clocks at low load; 524,288 of them are always enough. Where
 * a watchdog expires from the clock of its individual slice on, the values are 0 instead. A run of no states changes
 * nothing.
 * Refused as above, with 5 where `room` is below states_count + 23 (also for no states), and with 13 where one state is
 * over 3.
 */
struct bb_answer bb_run(struct bb_device *devices, size_t count, const uint8_t *states, size_t states_count,
                        uint8_t *returned, size_t room);

/*
 * Sets the fault flag of one device, 1 to `count`: 0 takes it away, any other `flag` raises it. Nothing else changes.
 * Refused as above, and with 13 for a device number or a kind out of range.
 */
uint8_t bb_set_fault(struct bb_device *devices, size_t count, size_t device, uint8_t kind, uint8_t flag);

/* ---- Light ---- */

/*
 * Whether a subframe, from 0, is ON (1) or not (0), for any global byte, which is taken modulo S.
 * Refused with 1, and with 13 for a subframe not below S.
 */
struct bb_answer bb_on(uint16_t part, uint8_t configuration, uint8_t global, uint32_t subframe);

/*
 * The lead of the window of `length` subframes from `start` on: S times its ON subframes less length * (g + 1).
 * Refused with 1, and with 13 where start plus length is over S.
 */
struct bb_signed bb_lead(uint16_t part, uint8_t configuration, uint8_t global, uint32_t start, uint32_t length);

/*
 * Whether an output is lit (1) or not (0) at a clock of a subframe, from numbers. The output is given in wire order, 0
 * (Z7 or B7) to 15 (Y0) or 23 (R0); the phase is 0 (MUX0) or, multiplexed, 1 (MUX1).
 * Refused with 1, with 6 where the value is not below 2^width, and with 13 for an output not below the part's outputs,
 * a subframe not below S, a clock not below the clocks per subframe, a phase over 1, or phase 1 where D0 is 0.
 */
struct bb_answer bb_lit(uint16_t part, uint8_t configuration, uint8_t global, uint16_t value, uint32_t output,
                        uint32_t subframe, uint32_t clock, uint32_t phase);

/*
 * The same of a device, by its configuration and active values. Refused with 1 for its part, and with 13 where it does
 * not fit or a position is out of range.
 */
struct bb_answer bb_device_lit(struct bb_device device, uint32_t output, uint32_t subframe, uint32_t clock,
                               uint32_t phase);

/*
 * The clocks of a subframe at which an output is lit, as one run: bb_lit answers 1 at each clock from `first` on and
 * before `end`, and 0 at every other. Both are 0 in a subframe that is not ON, and for a value not over the edge zone.
 * Refused as bb_lit is, apart from the clock.
 */
struct bb_clocks bb_lit_clocks(uint16_t part, uint8_t configuration, uint8_t global, uint16_t value, uint32_t output,
                               uint32_t subframe, uint32_t phase);

/* The same of a device, by its configuration and active values. Refused as bb_device_lit is, apart from the clock. */
struct bb_clocks bb_device_lit_clocks(struct bb_device device, uint32_t output, uint32_t subframe, uint32_t phase);

/*
 * Whether an output of one device of a chain, 1 to `count`, is lit at that device's present position, by its
 * configuration and active values, and the phase. With clocks per subframe c and phases p (1, or multiplexed 2) the
 * position stands in subframe position / (p * c), in phase position / c % p, at clock position % c: `lit` is what
 * bb_device_lit answers there. Nothing is written.
 * Refused as a chain is, with 1, 2, 4 and 13, and with 13 for a device number out of range or an output not below the
 * part's outputs.
 */
struct bb_shown_now bb_lit_now(const struct bb_device *chain, size_t count, size_t device, uint32_t output);

/* ---- Is it running? ---- */

/*
 * Compares a set with a chain: BB_SAME, or the first difference, by device, then group, then place. Nothing is written.
 * Global bytes are compared as stored; MUX1 values only where the set's D0 is 1.
 * Refusals:
 *   1, 2  the set's part or a record's; the set's devices or the chain's
 *   4     `calibration` or `individual` is not as long as the shares of the set's devices; the chain has another number
 *         of devices or another part; records differ in part
 *   6     the set's global byte is not below S, or an individual value is not below 2^width
 *   13    a record does not fit
 */
struct bb_compared bb_compare(uint16_t part, size_t devices, uint8_t configuration, const uint8_t *calibration,
                              size_t calibration_length, uint8_t global, const uint16_t *individual,
                              size_t individual_length, const struct bb_device *chain, size_t chain_length);

/* ---- Current ---- */

/*
 * What a set draws. An output that is lit sinks the least current of its part and, for each 1 of its bank's calibration
 * byte, the current step more. This is added up over all outputs and 524,288 clocks, which are one frame, or four where
 * GLB4 shortens it. Answers total, average and remainder of the sign, and writes the same three of each device, device
 * 1 first, to the front of `figures`. The sign's average is its total divided, and may be over the devices' averages
 * added up. All are in eighths of a microamp, which is 1/8000 mA: average / 8000 is the current in milliamps. At
 * calibration byte 255 a lit output sinks 239,250 / 8000 = 29.90625 mA on a part of 24 outputs and 438,625 / 8000 =
 * 54.828125 mA on one of 16, which the data sheet rounds to 30 and 55.
 * Refusals:
 *   1, 2  part, devices
 *   4     `calibration` or `individual` is not as long as the shares of so many devices
 *   5     `figures_length` is below 3 * devices
 *   6     the global byte is not below S, or an individual value is not below 2^width
 */
struct bb_sign_current bb_current(uint16_t part, size_t devices, uint8_t configuration, const uint8_t *calibration,
                                  size_t calibration_length, uint8_t global, const uint16_t *individual,
                                  size_t individual_length, uint64_t *figures, size_t figures_length);

#ifdef __cplusplus
}
#endif

#endif
