/*
 * lane.h - hazard verdicts for lane cards
 *
 * The functions of target/staticlib/liblanecard.a (`./build lanecard`),
 * for x86-64. Link with:  gcc -I include loader.c target/staticlib/liblanecard.a
 *
 * A card is a netlist (the contents of a file lane.lcn) and a change list
 * (lane.lct), both lent as bytes in memory. No function allocates, keeps a
 * pointer, has a state of its own or does input or output: the same bytes give
 * the same answer at any time and in any thread.
 *
 * What every call asks of its caller
 * ----------------------------------
 * - A pointer and the length after it name bytes that may be read, or for a
 *   buffer written, during the call. Any length will do, 0 too, but no pointer
 *   is NULL.
 * - `answer` has room for five words.
 * - Buffer and answer overlap neither each other nor netlist and list.
 * - lane_core, lane_forward and their _all forms go as deep as the card does:
 *   have 1 MB of stack free.
 * Nothing is asked of the bytes themselves: each call checks them first, and
 * lane_step reads any bytes.
 *
 * What every call gives
 * ---------------------
 * The value is 0, or the number of a refusal (enum lane_refusal).
 * - 0: the answer holds the words given below at each function, 0 in the rest;
 *   a buffer's written part is given there too, its later bytes stay.
 * - A refusal: answer[0] is the place, the other words are 0, and a buffer
 *   stays as it was. There is no verdict.
 *
 * What a list says of the outputs
 * -------------------------------
 * A change is a first and a second vector, a bit for each input in each. In a
 * version 2 list it also declares how each output should start and end: two rows
 * follow the second vector, with a bit for each output in each, of declared
 * starts and of declared ends. A list of either version may go with any netlist.
 *
 * Number n is bit n mod 8 of byte n / 8, in vectors and rows; spare bits are 0.
 * With V bytes of a vector and W bytes of a row, a list of T changes has
 * 11 + T * 2 * V bytes in version 1, 11 + T * (2 * V + 2 * W) in version 2.
 *
 * An output is clean in a change
 * - of a version 1 list if its class is LANE_0, LANE_1, LANE_R or LANE_F;
 * - of a version 2 list if its class is the one of these four that has its
 *   declared start and its declared end.
 * Otherwise it is hazardous, so that with declared ends an output may be called
 * hazardous that makes no pulse.
 */
#ifndef LANE_H
#define LANE_H

#include <stddef.h>
#include <stdint.h>

#ifdef __cplusplus
extern "C" {
#endif

/* The largest counts of an accepted card. */
enum lane_limit {
    LANE_MAX_INPUTS = 256,
    LANE_MAX_GATES = 2048,
    LANE_MAX_OUTPUTS = 64,
    LANE_MAX_CHANGES = 1000,
    /* The largest T of a version 2 list. */
    LANE_MAX_DECLARED_CHANGES = 800,
    /* I + G: a buffer of this length suits lane_full on every card. */
    LANE_MAX_SIGNALS = LANE_MAX_INPUTS + LANE_MAX_GATES,
    /* T * (I + G) and T * O: buffers of these lengths suit lane_full_all, and
       lane_forward_all and lane_core_all, on every card and list. */
    LANE_MAX_CLASSES = LANE_MAX_CHANGES * LANE_MAX_SIGNALS,
    LANE_MAX_VERDICTS = LANE_MAX_CHANGES * LANE_MAX_OUTPUTS,
    /* The longest netlist and the longest list of either version, in bytes. */
    LANE_MAX_NETLIST = 37003,
    LANE_MAX_LIST = 64011,
    /* Words of an answer. */
    LANE_ANSWER = 5
};

/*
 * The eight classes: what a signal can do during a change, whatever the delays
 * of gates and wires and whatever is declared. Codes below LANE_S0 are clean
 * classes, the others hazardous ones.
 */
enum lane_class {
    LANE_0 = 0,      /* stays 0 */
    LANE_1 = 1,      /* stays 1 */
    LANE_R = 2,      /* rises once */
    LANE_F = 3,      /* falls once */
    LANE_S0 = 4,     /* 0 at both ends, pulses between */
    LANE_S1 = 5,     /* 1 at both ends, pulses between */
    LANE_D_PLUS = 6, /* rises, with extra pulses */
    LANE_D_MINUS = 7 /* falls, with extra pulses */
};

/* The verdict of an output, in answer[0] of lane_core and in each byte of lane_forward,
   lane_forward_all and lane_core_all. */
enum lane_verdict {
    LANE_CLEAN = 0,    /* a clean class, in version 2 with the declared ends */
    LANE_HAZARDOUS = 1 /* a hazardous class; in version 2 also ends other than declared */
};

/* The operations that lane_join joins with. */
enum lane_operation {
    LANE_AND = 0,
    LANE_OR = 1
};

/*
 * Refusals. The first condition met, in this order, is the refusal. The place
 * counts bytes from 0, in the netlist for 1 to 10, in the list for 11 to 17;
 * the place of a two-byte field is its first byte.
 *
 * Which call meets which:
 *     lane_netlist   1 to 10
 *     lane_walk      1 to 10
 *     lane_step      none
 *     lane_list      1 to 17
 *     lane_full      1 to 18, 20
 *     lane_forward   1 to 18, 20
 *     lane_core      1 to 19
 *     lane_full_all, lane_forward_all, lane_core_all   1 to 17, 20
 *
 * In the netlist all of 1 to 4 come first; then 5 to 8 for record after record,
 * in each record in the order 5 (no two bytes left), 6, 7, 5 (pins cut off), 8;
 * then 5, 9, 10 for the output entries.
 */
enum lane_refusal {
    LANE_ACCEPTED = 0,

    /* the netlist */
    LANE_NETLIST_SHORT = 1,   /* under 11 bytes; place: its length */
    LANE_NETLIST_MARK = 2,    /* does not start with LCN; place 0 */
    LANE_NETLIST_VERSION = 3, /* version not 1; place 3 */
    LANE_COUNT = 4,           /* inputs not 1 to 256, place 5; gates over 2,048, place 7;
                                 outputs not 1 to 64, place 9 */
    LANE_CUT_OFF = 5,         /* a record is cut off; place: its start. Or the output
                                 entries are; place: the start of the first one */
    LANE_KIND = 6,            /* no kind of gate; place: the kind byte */
    LANE_PIN_COUNT = 7,       /* not one pin for NOT and BUFFER, not two to eight for the
                                 other kinds; place: the count byte */
    LANE_PIN = 8,             /* a pin not below its own gate's signal; place: the pin */
    LANE_ENTRY = 9,           /* an output entry that names no signal; place: the entry */
    LANE_BYTES_LEFT = 10,     /* bytes after the output entries; place: the first of them */

    /* the list */
    LANE_LIST_SHORT = 11,     /* under 11 bytes; place: its length */
    LANE_LIST_MARK = 12,      /* does not start with LCT; place 0 */
    LANE_LIST_VERSION = 13,   /* version neither 1 nor 2; place 3 */
    LANE_TIE = 14,            /* made for another netlist; place 5 */
    LANE_CHANGES = 15,        /* more than 1,000 changes, in version 2 more than 800;
                                 place 9 */
    LANE_LIST_LENGTH = 16,    /* length not that of its changes; place: its length */
    LANE_SPARE_BIT = 17,      /* a bit that stands for no input or, in a row, for no output
                                 is 1; place: the first byte with such a bit */

    /* what the call asks for; place 0 */
    LANE_NO_CHANGE = 18,      /* the list has no change of this number */
    LANE_NO_OUTPUT = 19,      /* the card has no output at this position */
    LANE_BUFFER_SHORT = 20,   /* the buffer is too short */
    LANE_PINS = 21            /* unused: no call gives it */
};

/*
 * Checks a netlist.
 *
 *   netlist, netlist_len   the contents of lane.lcn
 *
 * answer: [0] inputs I, [1] gates G, [2] outputs O, [3] pins of all gates,
 *         [4] place of the first output entry
 * Refusals 1 to 10.
 */
uint32_t lane_netlist(const uint8_t *netlist, size_t netlist_len, uint64_t answer[5]);

/*
 * Checks a change list against its netlist, which is checked first.
 *
 *   list, list_len         the contents of lane.lct
 *
 * answer: [0] changes T, [1] bytes of a vector V, [2] bytes of each row of declared
 *         ends W: 0 for a version 1 list, which has none
 * Refusals 1 to 17.
 */
uint32_t lane_list(const uint8_t *netlist, size_t netlist_len,
                   const uint8_t *list, size_t list_len,
                   uint64_t answer[5]);

/*
 * Full simulation: the class of every signal in one change, which does not depend
 * on what a list declares.
 *
 *   change                 its number, from 0
 *   buffer, buffer_len     gets a class (enum lane_class) in each of its first
 *                          I + G bytes: the inputs', then the gates' in order
 *
 * answer: no words, all 0
 * Refusals 1 to 18, then 20 where buffer_len is below I + G.
 */
uint32_t lane_full(const uint8_t *netlist, size_t netlist_len,
                   const uint8_t *list, size_t list_len,
                   size_t change,
                   uint8_t *buffer, size_t buffer_len,
                   uint64_t answer[5]);

/*
 * CORE: the verdict of one output in one change, from no more gates than it takes.
 * With declared ends it looks for their one class alone, which may take fewer. An
 * output that is an input has its class without a search: 0 gates, 0 pins.
 *
 *   change                 its number, from 0
 *   output                 position among the card's outputs, from 0
 *
 * answer: [0] verdict (enum lane_verdict), [1] class (enum lane_class) of a clean
 *         output, 0 of a hazardous one, [2] gates visited, [3] pins taken: never
 *         more than the pins of the output's cone (its own gate and every gate
 *         that reaches it through pins; empty for an output that is an input)
 * Refusals 1 to 18, then 19.
 */
uint32_t lane_core(const uint8_t *netlist, size_t netlist_len,
                   const uint8_t *list, size_t list_len,
                   size_t change, size_t output,
                   uint64_t answer[5]);

/*
 * The forward method: the verdicts of all outputs in one change. Constants are
 * spread over the card first, then each output is searched as by lane_core, but
 * one that is a constant, as one that is an input, is judged without a search.
 *
 *   change                 its number, from 0
 *   buffer, buffer_len     gets a verdict (enum lane_verdict) in each of its
 *                          first O bytes
 *
 * answer: [0] gates touched, those with a constant pin, [1] gates visited,
 *         summed over the outputs
 * Refusals 1 to 18, then 20 where buffer_len is below O.
 */
uint32_t lane_forward(const uint8_t *netlist, size_t netlist_len,
                      const uint8_t *list, size_t list_len,
                      size_t change,
                      uint8_t *buffer, size_t buffer_len,
                      uint64_t answer[5]);

/*
 * All changes of a list in one call each, for which netlist and list are checked
 * once. The buffer gets a row for each change, in order, with no gap between:
 * what the call for that one change gives. With T = 0 nothing is written.
 * Each answers with [0] T and [1] the bytes of a row, so that a loader needs no
 * other call.
 *
 * Full simulation of all changes.
 *
 *   buffer, buffer_len     gets T rows of I + G classes (enum lane_class): signal
 *                          s in change t is buffer[t * (I + G) + s]
 *
 * answer: [0] T, [1] I + G
 * Refusals 1 to 17, then 20 where buffer_len is below T * (I + G).
 */
uint32_t lane_full_all(const uint8_t *netlist, size_t netlist_len,
                       const uint8_t *list, size_t list_len,
                       uint8_t *buffer, size_t buffer_len,
                       uint64_t answer[5]);

/*
 * The forward method on all changes.
 *
 *   buffer, buffer_len     gets T rows of O verdicts (enum lane_verdict): output
 *                          o in change t is buffer[t * O + o]
 *
 * answer: [0] T, [1] O, [2] gates touched, summed over the changes, [3] gates
 *         visited, summed over the changes and outputs
 * Refusals 1 to 17, then 20 where buffer_len is below T * O.
 */
uint32_t lane_forward_all(const uint8_t *netlist, size_t netlist_len,
                          const uint8_t *list, size_t list_len,
                          uint8_t *buffer, size_t buffer_len,
                          uint64_t answer[5]);

/*
 * CORE on all outputs in all changes.
 *
 *   buffer, buffer_len     gets T rows of O verdicts (enum lane_verdict): output
 *                          o in change t is buffer[t * O + o]
 *
 * answer: [0] T, [1] O, [2] gates visited, [3] pins taken, each summed over the
 *         changes and outputs
 * Refusals 1 to 17, then 20 where buffer_len is below T * O.
 */
uint32_t lane_core_all(const uint8_t *netlist, size_t netlist_len,
                       const uint8_t *list, size_t list_len,
                       uint8_t *buffer, size_t buffer_len,
                       uint64_t answer[5]);

/*
 * Opens a gate walk, which hands back the gate records of a netlist one after
 * the other: checks the netlist, and stands before the first record.
 *
 * answer: [0] number of the next record, 0, [1] its place, 11, [2] records in
 *         all, G
 * Refusals 1 to 10.
 */
uint32_t lane_walk(const uint8_t *netlist, size_t netlist_len, uint64_t answer[5]);

/*
 * A step of a gate walk. It hands back the next record and moves on, or there is
 * none and it stays: all records are handed back, or no whole record can be read
 * at the place. A whole record is a kind, a pin count that suits it and that many
 * pins, all inside the netlist.
 *
 *   number, place, count   where the walk stands and its records in all: what
 *                          lane_walk gave, then what each step gave. Any other
 *                          values may be asked for too
 *
 * answer: [0] length of the record, netlist[place .. place + length], 0 for none,
 *         [1] number and [2] place after the step
 * No refusals: the netlist is not checked.
 */
uint32_t lane_step(const uint8_t *netlist, size_t netlist_len,
                   size_t number, size_t place, size_t count,
                   uint64_t answer[5]);

/*
 * The class of an AND or OR of two pins with classes a and b. Of the operation
 * (enum lane_operation) the lowest bit counts, of a class the lowest three, so
 * that every argument is permitted. NAND and NOR are lane_invert of it.
 */
uint8_t lane_join(uint8_t operation, uint8_t a, uint8_t b);

/* The class of NOT of a pin with class a, of which the lowest three bits count. */
uint8_t lane_invert(uint8_t a);

#ifdef __cplusplus
}
#endif

#endif
