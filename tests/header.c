/*
 * Calls every function as lane.h declares it, on document 01's case Mux and with
 * a version 2 list for it. Ends with status 1 if an answer is not the one of the
 * documents.
 */
#include "lane.h"

#include <stdio.h>
#include <string.h>

static const uint8_t netlist[] = {
    0x4C, 0x43, 0x4E, 0x01, 0x00, 0x03, 0x00, 0x04, 0x00, 0x01, 0x00, 0x01,
    0x01, 0x02, 0x00, 0x03, 0x02, 0x00, 0x00, 0x02, 0x00, 0x03, 0x02, 0x01,
    0x00, 0x03, 0x00, 0x04, 0x02, 0x04, 0x00, 0x05, 0x00, 0x06, 0x00};
static const uint8_t list[] = {0x4C, 0x43, 0x54, 0x01, 0x00, 0x0D, 0x20,
                               0x00, 0x00, 0x01, 0x00, 0x07, 0x03};

/* Two changes in which no input moves and the output stays 1: declared so, then
   declared to rise. */
static const uint8_t declared[] = {0x4C, 0x43, 0x54, 0x02, 0x00, 0x0D, 0x20,
                                   0x00, 0x00, 0x02, 0x00, 0x07, 0x07, 0x01,
                                   0x01, 0x07, 0x07, 0x00, 0x01};

static uint64_t answer[LANE_ANSWER];
static uint8_t buffer[LANE_MAX_SIGNALS];
static int status;

static void expect(const char *call, int right)
{
    if (!right) {
        printf("lane.h: %s\n", call);
        status = 1;
    }
    memset(answer, 0xEE, sizeof answer);
    memset(buffer, 0xEE, sizeof buffer);
}

static int is(uint64_t a, uint64_t b, uint64_t c, uint64_t d, uint64_t e)
{
    const uint64_t right[LANE_ANSWER] = {a, b, c, d, e};
    return memcmp(answer, right, sizeof right) == 0;
}

#define EXPECT(call, right) expect(#call, call == LANE_ACCEPTED && right)
#define NETLIST netlist, sizeof netlist
#define CARD NETLIST, list, sizeof list
#define DECLARED NETLIST, declared, sizeof declared
#define BUFFER buffer, sizeof buffer
#define CLASSES (memcmp(buffer, "\1\1\3\2\3\2\5\xEE", 8) == 0)
#define HAZARD (buffer[0] == LANE_HAZARDOUS && buffer[1] == 0xEE)
#define RESTING "\1\1\1\0\1\0\1"
#define AS_DECLARED_ONCE \
    (buffer[0] == LANE_CLEAN && buffer[1] == LANE_HAZARDOUS && buffer[2] == 0xEE)

int main(void)
{
    expect("start", 1);
    EXPECT(lane_netlist(NETLIST, answer), is(3, 4, 1, 7, 33));
    EXPECT(lane_list(CARD, answer), is(1, 1, 0, 0, 0));
    EXPECT(lane_full(CARD, 0, BUFFER, answer), is(0, 0, 0, 0, 0) && CLASSES);
    EXPECT(lane_forward(CARD, 0, BUFFER, answer), is(2, 4, 0, 0, 0) && HAZARD);
    EXPECT(lane_core(CARD, 0, 0, answer), is(LANE_HAZARDOUS, 0, 4, 7, 0));
    EXPECT(lane_full_all(CARD, BUFFER, answer), is(1, 7, 0, 0, 0) && CLASSES);
    EXPECT(lane_forward_all(CARD, BUFFER, answer), is(1, 1, 2, 4, 0) && HAZARD);
    EXPECT(lane_core_all(CARD, BUFFER, answer), is(1, 1, 4, 7, 0) && HAZARD);
    EXPECT(lane_list(DECLARED, answer), is(2, 1, 1, 0, 0));
    EXPECT(lane_full(DECLARED, 1, BUFFER, answer),
           is(0, 0, 0, 0, 0) && memcmp(buffer, RESTING "\xEE", 8) == 0);
    EXPECT(lane_forward(DECLARED, 1, BUFFER, answer), is(4, 0, 0, 0, 0) && HAZARD);
    EXPECT(lane_core(DECLARED, 0, 0, answer), is(LANE_CLEAN, LANE_1, 2, 3, 0));
    EXPECT(lane_core(DECLARED, 1, 0, answer), is(LANE_HAZARDOUS, 0, 2, 3, 0));
    EXPECT(lane_full_all(DECLARED, BUFFER, answer),
           is(2, 7, 0, 0, 0) && memcmp(buffer, RESTING RESTING "\xEE", 15) == 0);
    EXPECT(lane_forward_all(DECLARED, BUFFER, answer), is(2, 1, 8, 0, 0) && AS_DECLARED_ONCE);
    EXPECT(lane_core_all(DECLARED, BUFFER, answer), is(2, 1, 4, 6, 0) && AS_DECLARED_ONCE);
    EXPECT(lane_walk(NETLIST, answer), is(0, 11, 4, 0, 0));
    EXPECT(lane_step(NETLIST, 1, 15, 4, answer), is(6, 2, 21, 0, 0));
    EXPECT(lane_step(NETLIST, 4, 33, 4, answer), is(0, 4, 33, 0, 0));
    expect("row cut off", lane_list(NETLIST, declared, sizeof declared - 1, answer) ==
                              LANE_LIST_LENGTH);
    expect("no such change", lane_full(CARD, 1, BUFFER, answer) == LANE_NO_CHANGE);
    expect("no such output", lane_core(CARD, 0, 1, answer) == LANE_NO_OUTPUT);
    expect("buffer", lane_core_all(CARD, buffer, 0, answer) == LANE_BUFFER_SHORT);
    expect("lane_join", lane_join(LANE_OR, LANE_R, LANE_F) == LANE_S1);
    expect("lane_invert", lane_invert(LANE_D_PLUS) == LANE_D_MINUS);
    return status;
}
