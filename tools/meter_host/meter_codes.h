/* What the calls of a meter answer, in C: of meter.h of this folder, whose meter the program meter_host holds, and of the library of a node
 * (tools/plain_rust/node_c), whose calls have the same names. */
#ifndef METER_CODES_H
#define METER_CODES_H

enum meter_status {
    METER_DONE = 0,
    METER_REFUSED = 1,        /* refused, or the frame dropped: nothing is handed up. A dropped frame may still have stored a record */
    METER_HALTED = 2,         /* end the meter, and open another one */
    METER_BAD_STORE = 3,      /* meter_open: a record has no reading */
    METER_MALFORMED = 4,      /* an argument out of its range; nothing was done */
    METER_MEMORY = 5,         /* meter_open: there is no memory */
    METER_STORE_FAILED = 6,   /* meter_device.store answered so */
    /* Of meter_host alone. */
    METER_GONE = 7,           /* the program ended, was not started, or answered what is no answer to this call: nothing of it was done */
    METER_LATE = 8,           /* the program did not answer within device.wait_ms: nothing was done */
    METER_OTHER_VERSION = 9   /* meter_start: the program does not speak METER_VERSION of the items */
};

/* Which refusal it was after METER_REFUSED (meter.refusal), by the call. Those that end with METER_HALTED do not come. */
enum meter_refusal {
    /* of meter_provision */
    METER_PROVISION_NOT_HELD = 1, METER_PROVISION_STORE = 2,
    /* of meter_near */
    METER_NEAR_NOT_BETTER = 1, METER_NEAR_ROUTES_FULL = 2, METER_NEAR_STORE = 3,
    /* of meter_random */
    METER_RANDOM_HALTED = 1, METER_RANDOM_RANDOMS_FULL = 2,
    /* of meter_join */
    METER_JOIN_HALTED = 1, METER_JOIN_ALREADY_JOINED = 2,
    /* of meter_leave */
    METER_LEAVE_HALTED = 1, METER_LEAVE_NOT_JOINED = 2, METER_LEAVE_STORE = 3,
    /* of meter_send */
    METER_SEND_HALTED = 1, METER_SEND_NOT_JOINED = 2, METER_SEND_BAD_SIZE = 3, METER_SEND_TO_SELF = 4, METER_SEND_WAITING_FULL = 5,
    METER_SEND_SEQ_SPENT = 6, METER_SEND_COUNTER_SPENT = 7, METER_SEND_STORE = 8,
    /* of meter_hear: the frame is not accepted, or (from 9) it is dropped */
    METER_HEAR_HALTED = 1, METER_HEAR_MALFORMED = 2, METER_HEAR_NOT_FOR_ME = 3, METER_HEAR_NO_KEY = 4,
    METER_HEAR_BAD_TAG = 5, METER_HEAR_REPLAYED = 6, METER_HEAR_PEERS_FULL = 7, METER_HEAR_STORE = 8,
    METER_HEAR_BAD_UNIT = 9, METER_HEAR_NO_ROUTE = 10, METER_HEAR_HOPS_SPENT = 11, METER_HEAR_NOT_BETTER = 12,
    METER_HEAR_COST_SPENT = 13, METER_HEAR_ROUTES_FULL = 14, METER_HEAR_NOT_ALLOWED = 15, METER_HEAR_NO_SESSION = 16,
    METER_HEAR_SESSIONS_FULL = 17, METER_HEAR_NO_RANDOM = 18, METER_HEAR_FORM = 19, METER_HEAR_OTHER_SESSION = 20,
    METER_HEAR_BAD_MAC = 21, METER_HEAR_BAD_CHANNEL = 22, METER_HEAR_NO_SUCCESS = 23, METER_HEAR_NOT_HELD = 24,
    METER_HEAR_BUFFER_FULL = 25, METER_HEAR_SEQ_SPENT = 26, METER_HEAR_COUNTER_SPENT = 27, METER_HEAR_DROPPED_STORE = 28
};

#define METER_RECORD_MAX 64u     /* octets of a record */
#define METER_PUTS_MAX 5u        /* records that one call gives, at most: 4, and 1 of taking in a frame */
#define METER_FRAME_MAX 400u
#define METER_FRAMES_MAX 24u     /* frames that one call gives, at most */
#define METER_DATAGRAM_MAX 1280u
#endif
