/*
 * rgw: a residential gateway for MGCP 1.0 (RFC 3435), as a library.
 *
 * A gateway is deterministic and does nothing by itself: it is given one event at a time (a datagram, an act at a telephone, the
 * clock), and what it sends is then asked for. It has no thread, no socket, no clock and no global state. What each call does is proved
 * of the library, as long as the caller keeps what stands here.
 *
 * WHAT THE CALLER KEEPS, which the library can't check, here as a whole, and behind "Keep:" at each function:
 *  - A handle begins as RGW_CLOSED. It is read and written by these functions alone, and not copied while both copies are used.
 *  - A pointer and a length name that many bytes of readable memory, and a buffer and its room that many bytes of writable memory. The
 *    handle, buffers and what a call writes through other pointers don't overlap.
 *  - One call at a time on a handle, on the thread that opened it. Handles are independent of each other: another one may be used on
 *    another thread at the same time.
 *  - No call from a signal handler, nor from the forked child of a process with threads.
 *  - malloc, realloc and free are of one allocator and align as the C standard says.
 *
 * WHAT IS ANSWERED. Each function returns a number, RGW_OK or why it did nothing. Unless it says otherwise a call that isn't answered
 * RGW_OK leaves the gateway, its outputs and all that its pointers lead to as they were. A null pointer is answered RGW_NULL, and
 * nothing is done; a text or a buffer of length 0 may be null. Where memory is refused (RGW_OUT_OF_MEMORY) the handle goes on, and the
 * same call may go well later.
 *
 * Moments are in ms from 0, where a gateway opens. An IPv4 address is a number in the machine's own order, as ntohl gives it:
 * 127.0.0.1 is 0x7F000001; so is a port. Each number is an address, and each a port: none of them is refused. Lines are counted from 1,
 * indexes and places from 0.
 *
 * WHAT IS OUT OF RANGE. Each of these is answered so, and does nothing more than that: a configuration's text of more than
 * RGW_LONGEST_CONFIG bytes RGW_TOO_LONG (rgw_check tells it as a flaw); a first number from RGW_FIRSTS on RGW_BAD_FIRST; a datagram of
 * more than RGW_LARGEST_DATAGRAM bytes RGW_OK, as any other; a buffer with less room than there is to tell RGW_SMALL_BUFFER; line 0, or
 * one past the last, RGW_NO_SUCH_LINE; an index past the last, or a place from RGW_PLACES on, RGW_NO_SUCH_PLACE; a tick more than
 * RGW_LARGEST_TICK ms past the one before it, or from 2^62 on, RGW_TICK_TOO_FAR, and one before it RGW_CLOCK_BACK; an act that isn't
 * listed RGW_BAD_ACT.
 */
#ifndef RGW_H
#define RGW_H

#include <stddef.h>
#include <stdint.h>

#define RGW_VERSION_MAJOR 0
#define RGW_VERSION_MINOR 1
#define RGW_VERSION_PATCH 0
#define RGW_VERSION "0.1.0"
/* What rgw_version() gives where the library is of the same version as this header. */
#define RGW_VERSION_NUMBER (RGW_VERSION_MAJOR * 10000 + RGW_VERSION_MINOR * 100 + RGW_VERSION_PATCH)

#ifdef __cplusplus
extern "C" {
#endif

/* How far ranges go: the bytes of a configuration's text and of a datagram, the numbers with which ids may begin, from 0 on, the lines of
 * a gateway, the places of a line, and the ms of a tick. */
#define RGW_LONGEST_CONFIG 1048576
#define RGW_LARGEST_DATAGRAM 4000
#define RGW_FIRSTS 9999999
#define RGW_MOST_LINES 96
#define RGW_PLACES 4
#define RGW_LARGEST_TICK 1000

/* A handle: closed, or a gateway with the outputs of its last event. */
typedef struct rgw_gateway {
    void *inner;
} rgw_gateway;

/* A handle that isn't open: rgw_gateway gateway = RGW_CLOSED; */
#define RGW_CLOSED {NULL}

/* What a call is answered. */
typedef uint32_t rgw_result;

enum {
    RGW_OK = 0,
    /* Memory was refused. */
    RGW_OUT_OF_MEMORY = 1,
    /* A tick more than RGW_LARGEST_TICK ms past the one before it, or at or past 2^62. */
    RGW_TICK_TOO_FAR = 2,
    /* A tick before the one before it. */
    RGW_CLOCK_BACK = 3,
    /* There is no such line. */
    RGW_NO_SUCH_LINE = 4,
    /* An act that the hook state rules out: a key on hook, off hook twice. */
    RGW_PHONE_STATE = 5,
    /* The domain isn't 1 to 64 letters, digits, "-" and ".". */
    RGW_BAD_DOMAIN = 12,
    /* There are no lines, or more than RGW_MOST_LINES. */
    RGW_BAD_LINES = 13,
    /* A host's name isn't as a domain is, or stands twice, there are more than 64 of them, or the agent is none. */
    RGW_BAD_AGENT = 14,
    /* A wait isn't 1 to 600,000 ms. */
    RGW_BAD_WAIT = 15,
    /* The lowest media port is odd, or not from 1,024 to 64,000. */
    RGW_BAD_MEDIA = 16,
    /* The text isn't TOML, or lacks a key, or has another one, or a value of another kind. */
    RGW_BAD_TOML = 17,
    /* The text has more than RGW_LONGEST_CONFIG bytes. */
    RGW_TOO_LONG = 18,
    /* The handle isn't open. */
    RGW_NOT_OPEN = 20,
    /* The handle is open already. */
    RGW_IS_OPEN = 21,
    /* No ids begin with this number: it isn't below RGW_FIRSTS. */
    RGW_BAD_FIRST = 22,
    /* No act has this number. */
    RGW_BAD_ACT = 23,
    /* Nothing has this index, or this place. */
    RGW_NO_SUCH_PLACE = 24,
    /* The buffer is too small. */
    RGW_SMALL_BUFFER = 25,
    /* No connection is at this place. */
    RGW_NO_CONNECTION = 26,
    /* Nothing is due. */
    RGW_NOTHING_DUE = 27,
    /* The configuration has a flaw. */
    RGW_HAS_FLAW = 28,
    /* A pointer is null. */
    RGW_NULL = 29
};

/* Acts at a telephone; a key is its sign in ASCII: '0' to '9', '*', '#', 'A' to 'D'. */
enum { RGW_OFF_HOOK = 1, RGW_ON_HOOK = 2, RGW_FLASH = 3 };

/* Whose a message is: nobody's, an answer to a command for a line (0: for none), of a line's own (0: the gateway's). */
enum { RGW_NOBODY = 0, RGW_ANSWER_OF = 1, RGW_OWN_OF = 2 };

/* What a message is: an answer, the stored answer once more, a command, a command sent again, an acknowledgement. */
enum { RGW_ANSWER = 1, RGW_AGAIN = 2, RGW_COMMAND = 3, RGW_RESENT = 4, RGW_ACKNOWLEDGEMENT = 5 };

/* Verbs (RFC 3435, 3.2.1.1). */
enum {
    RGW_NO_VERB = 0,
    RGW_EPCF = 1,
    RGW_RQNT = 2,
    RGW_NTFY = 3,
    RGW_CRCX = 4,
    RGW_MDCX = 5,
    RGW_DLCX = 6,
    RGW_AUEP = 7,
    RGW_AUCX = 8,
    RGW_RSIP = 9
};

/* What a text was that came. */
enum { RGW_CAME_NO_MESSAGE = 1, RGW_CAME_COMMAND = 2, RGW_CAME_RESPONSE = 3 };

/* What it got: nothing, an answer, the stored answer once more, silence, since that answer was confirmed, silence, since too many commands
 * are young, an acknowledgement. */
enum {
    RGW_GOT_NOTHING = 0,
    RGW_GOT_ANSWER = 1,
    RGW_GOT_AGAIN = 2,
    RGW_GOT_SILENCE = 3,
    RGW_GOT_NO_ROOM = 4,
    RGW_GOT_ACKNOWLEDGEMENT = 5
};

/* What of a command is at fault: nothing that is known, its verb, its endpoint's name, a parameter line, a parameter that is missing, the
 * value of one, the description of the remote end. */
enum {
    RGW_FAULT_UNKNOWN = 0,
    RGW_FAULT_VERB = 1,
    RGW_FAULT_NAME = 2,
    RGW_FAULT_LINE = 3,
    RGW_FAULT_MISSING = 4,
    RGW_FAULT_VALUE = 5,
    RGW_FAULT_DESCRIPTION = 6
};

/* Signals (RFC 3660, 2.5 and 2.1): L/dl, L/bz, L/ro, L/rg, L/rs, L/vmwi, G/rt, G/cg, G/cf. */
enum {
    RGW_DIAL_TONE = 1,
    RGW_BUSY = 2,
    RGW_REORDER = 3,
    RGW_RINGING = 4,
    RGW_RING_SPLASH = 5,
    RGW_MESSAGE_WAITING = 6,
    RGW_RINGBACK = 7,
    RGW_CONGESTION = 8,
    RGW_CONFIRM = 9
};

/* Modes of a connection (RFC 3435, 2.3.5). */
enum { RGW_SEND_ONLY = 1, RGW_RECEIVE_ONLY = 2, RGW_SEND_RECEIVE = 3, RGW_CONFERENCE = 4, RGW_INACTIVE = 5 };

/* A datagram that the gateway sends: when, and where to. */
typedef struct rgw_output_info {
    uint64_t moment;
    uint32_t host;
    uint16_t port;
} rgw_output_info;

/* A message that was sent: when, where to, its transaction id, whose it is and of which line, what it is, the return code of an answer
 * (else 0), the verb of a command (else 0), and which send of it this is, from 1. */
typedef struct rgw_message_info {
    uint64_t moment;
    uint32_t host;
    uint32_t id;
    uint16_t port;
    uint16_t whose;
    uint16_t line;
    uint16_t what;
    uint16_t code;
    uint16_t verb;
    uint16_t send;
} rgw_message_info;

/* What a text was that came: which parameter line is at fault, from 1, or which parameter, by its letter in ASCII; its transaction id; what
 * it was; its verb; what it got; the return code of the answer; what of it is at fault. Each is 0 where there is no such thing. */
typedef struct rgw_outcome_info {
    uint64_t place;
    uint32_t id;
    uint16_t came;
    uint16_t verb;
    uint16_t got;
    uint16_t code;
    uint16_t fault;
} rgw_outcome_info;

/* A command of the gateway's own that was given up: when, its transaction id, of which line (0: the gateway's), and its verb. */
typedef struct rgw_given_up_info {
    uint64_t moment;
    uint32_t id;
    uint16_t line;
    uint16_t verb;
} rgw_given_up_info;

/* An active signal, and when it ends: that moment where `ends` is 1; where it is 0 no time ends it. */
typedef struct rgw_signal_info {
    uint64_t end;
    uint16_t signal;
    uint16_t ends;
} rgw_signal_info;

/* A connection: its number, where the gateway receives, where it sends (is_remote_known is 1 once that is known; else both are 0), its
 * mode, the time of a packet in ms, and the payload types in force (RFC 3551: 0 is PCMU, 8 is PCMA): how many, 1 or 2, the first, which is
 * sent, and the last, which is taken too. */
typedef struct rgw_connection_info {
    uint32_t number;
    uint32_t local_host;
    uint32_t remote_host;
    uint16_t local_port;
    uint16_t remote_port;
    uint16_t is_remote_known;
    uint16_t mode;
    uint16_t packet_time;
    uint16_t payloads;
    uint16_t first_payload;
    uint16_t last_payload;
} rgw_connection_info;

/* The exports of the library, which take no null pointer, also where a length is 0. The functions below them call these. */
rgw_result rgw_open_nonnull(rgw_gateway *gateway, const uint8_t *config, size_t config_len, uint32_t first);
rgw_result rgw_check_nonnull(const uint8_t *config, size_t config_len, uint8_t *buffer, size_t room, size_t *needed);
rgw_result rgw_close_nonnull(rgw_gateway *gateway);
rgw_result rgw_datagram_nonnull(rgw_gateway *gateway, uint32_t host, uint16_t port, const uint8_t *bytes, size_t len);
rgw_result rgw_phone_nonnull(rgw_gateway *gateway, uint16_t line, uint32_t act);
rgw_result rgw_tick_nonnull(rgw_gateway *gateway, uint64_t moment);
rgw_result rgw_now_nonnull(rgw_gateway *gateway, uint64_t *moment);
rgw_result rgw_next_due_nonnull(rgw_gateway *gateway, uint64_t *moment);
rgw_result rgw_outputs_nonnull(rgw_gateway *gateway, size_t *count);
rgw_result rgw_output_nonnull(rgw_gateway *gateway, size_t index, rgw_output_info *output, uint8_t *buffer, size_t room,
                              size_t *needed);
rgw_result rgw_messages_nonnull(rgw_gateway *gateway, size_t *count);
rgw_result rgw_message_nonnull(rgw_gateway *gateway, size_t index, rgw_message_info *message);
rgw_result rgw_outcome_nonnull(rgw_gateway *gateway, size_t index, rgw_outcome_info *outcome);
rgw_result rgw_given_up_nonnull(rgw_gateway *gateway, size_t index, rgw_given_up_info *command);
rgw_result rgw_lines_nonnull(rgw_gateway *gateway, uint16_t *lines);
rgw_result rgw_hook_nonnull(rgw_gateway *gateway, uint16_t line, uint32_t *hook);
rgw_result rgw_lost_nonnull(rgw_gateway *gateway, uint16_t line, uint64_t *lost);
rgw_result rgw_signal_nonnull(rgw_gateway *gateway, uint16_t line, size_t index, rgw_signal_info *signal);
rgw_result rgw_connection_nonnull(rgw_gateway *gateway, uint16_t line, uint16_t place, rgw_connection_info *connection);

/* The version of the library: 10,000 times the first number, 100 times the second, and the third. */
uint32_t rgw_version(void);

/* The byte that stands for a null text of length 0. */
static const uint8_t rgw_no_byte = 0;

/*
 * Opens a handle that isn't open on a gateway of the configuration in a text (TOML, as rgwd takes it), at moment 0. Its ids begin
 * with `first`, below RGW_FIRSTS, and its own one higher: a gateway that starts again takes another number than the last time (RFC 3435,
 * 3.2.1.2), as the time of day in ms, divided by 50, modulo RGW_FIRSTS.
 *
 * RGW_IS_OPEN comes first, then RGW_BAD_FIRST, then RGW_TOO_LONG of a text of more than RGW_LONGEST_CONFIG bytes, then the first fault
 * of the configuration, RGW_BAD_DOMAIN to RGW_BAD_TOML, which rgw_check says in words; or RGW_OUT_OF_MEMORY. After each the handle is
 * as it was.
 * Keep: one call at a time on `gateway`; `config` has `config_len` bytes.
 */
static inline rgw_result rgw_open(rgw_gateway *gateway, const void *config, size_t config_len, uint32_t first) {
    if (gateway == NULL || (config == NULL && config_len != 0)) return RGW_NULL;
    return rgw_open_nonnull(gateway, config == NULL ? &rgw_no_byte : (const uint8_t *)config, config_len, first);
}

/*
 * Says what is wrong with the configuration in a text: RGW_OK where nothing is. RGW_HAS_FLAW: the key, what stands there and what may, as
 * `rgwd --check` says it, is in the buffer, in printable ASCII, `*needed` bytes without an end. RGW_SMALL_BUFFER: it has a flaw, and
 * `*needed` is how long its line is; the buffer is as it was. RGW_OUT_OF_MEMORY: nothing is told. A text of more than RGW_LONGEST_CONFIG
 * bytes has the flaw that it is. What rgw_open takes may have one flaw: media at 0.0.0.0, where no other machine sends anything.
 * Keep: `config` has `config_len` bytes, `buffer` room for `room`; neither overlaps the other or `needed`.
 */
static inline rgw_result rgw_check(const void *config, size_t config_len, void *buffer, size_t room, size_t *needed) {
    uint8_t none = 0;
    if (needed == NULL || (config == NULL && config_len != 0) || (buffer == NULL && room != 0)) return RGW_NULL;
    return rgw_check_nonnull(config == NULL ? &rgw_no_byte : (const uint8_t *)config, config_len,
                             buffer == NULL ? &none : (uint8_t *)buffer, room, needed);
}

/*
 * Closes a handle and frees what it had; RGW_NOT_OPEN where it isn't open. Afterwards it may be opened again.
 * Keep: one call at a time on `gateway`, and no copy of it is used afterwards.
 */
static inline rgw_result rgw_close(rgw_gateway *gateway) {
    return gateway == NULL ? (rgw_result)RGW_NULL : rgw_close_nonnull(gateway);
}

/*
 * A datagram came from this address. One of more than RGW_LARGEST_DATAGRAM bytes does nothing: it is answered RGW_OK, and there are no
 * outputs. Any other is taken, whatever it says (RFC 3435, 3.5): RGW_NOT_OPEN and RGW_OUT_OF_MEMORY alone refuse it. Then the outputs
 * are what is sent at it.
 * Keep: one call at a time on `gateway`; `bytes` has `len` bytes.
 */
static inline rgw_result rgw_datagram(rgw_gateway *gateway, uint32_t host, uint16_t port, const void *bytes, size_t len) {
    if (gateway == NULL || (bytes == NULL && len != 0)) return RGW_NULL;
    return rgw_datagram_nonnull(gateway, host, port, bytes == NULL ? &rgw_no_byte : (const uint8_t *)bytes, len);
}

/*
 * Something is done at the telephone of a line: RGW_OFF_HOOK, RGW_ON_HOOK, RGW_FLASH, or a key by its sign. RGW_BAD_ACT comes first,
 * then RGW_NOT_OPEN, RGW_NO_SUCH_LINE, RGW_PHONE_STATE, and RGW_OUT_OF_MEMORY.
 * Keep: one call at a time on `gateway`.
 */
static inline rgw_result rgw_phone(rgw_gateway *gateway, uint16_t line, uint32_t act) {
    return gateway == NULL ? (rgw_result)RGW_NULL : rgw_phone_nonnull(gateway, line, act);
}

/*
 * The clock: it is this moment. All that is due up to it happens, each at its own moment. A step is at most RGW_LARGEST_TICK ms, so a
 * clock that was away catches up by several ticks: RGW_TICK_TOO_FAR, RGW_CLOCK_BACK, RGW_NOT_OPEN, RGW_OUT_OF_MEMORY.
 * Keep: one call at a time on `gateway`.
 */
static inline rgw_result rgw_tick(rgw_gateway *gateway, uint64_t moment) {
    return gateway == NULL ? (rgw_result)RGW_NULL : rgw_tick_nonnull(gateway, moment);
}

/*
 * The moment of the last tick that was taken, 0 before any. RGW_NOT_OPEN.
 * Keep: one call at a time on `gateway`; `moment` lies outside it.
 */
static inline rgw_result rgw_now(rgw_gateway *gateway, uint64_t *moment) {
    return gateway == NULL || moment == NULL ? (rgw_result)RGW_NULL : rgw_now_nonnull(gateway, moment);
}

/*
 * The moment at which something falls due next: a signal or timer ends, a command is sent again or given up, a restart is announced
 * (RFC 3435, 2.1.5, 2.1.7, 3.5.3, 4.4.6). Until then no tick does anything but move the clock. RGW_NOTHING_DUE where nothing
 * does, RGW_NOT_OPEN.
 * Keep: one call at a time on `gateway`; `moment` lies outside it.
 */
static inline rgw_result rgw_next_due(rgw_gateway *gateway, uint64_t *moment) {
    return gateway == NULL || moment == NULL ? (rgw_result)RGW_NULL : rgw_next_due_nonnull(gateway, moment);
}

/*
 * How many datagrams are to be sent because of the last event that was taken: a refused one leaves those before. RGW_NOT_OPEN.
 * Keep: one call at a time on `gateway`; `count` lies outside it.
 */
static inline rgw_result rgw_outputs(rgw_gateway *gateway, size_t *count) {
    return gateway == NULL || count == NULL ? (rgw_result)RGW_NULL : rgw_outputs_nonnull(gateway, count);
}

/*
 * One of them, by its index, in the order in which they are sent; its bytes are copied to the start of the buffer, and `*needed` is how
 * many they are: with room 0 that is asked alone. RGW_SMALL_BUFFER: the buffer alone is as it was; `*output` and `*needed` are told.
 * RGW_NO_SUCH_PLACE, RGW_NOT_OPEN.
 * Keep: one call at a time on `gateway`; `buffer` has room for `room` bytes; it, `output` and `needed` lie apart.
 */
static inline rgw_result rgw_output(rgw_gateway *gateway, size_t index, rgw_output_info *output, void *buffer, size_t room,
                                    size_t *needed) {
    uint8_t none = 0;
    if (gateway == NULL || output == NULL || needed == NULL || (buffer == NULL && room != 0)) return RGW_NULL;
    return rgw_output_nonnull(gateway, index, output, buffer == NULL ? &none : (uint8_t *)buffer, room, needed);
}

/*
 * How many messages were sent at the last event that was taken: several may share a datagram, a line of a single dot between them (RFC
 * 3435, 3.5.5). They stand in the order of the datagrams, and of the texts in each. RGW_NOT_OPEN.
 * Keep: one call at a time on `gateway`; `count` lies outside it.
 */
static inline rgw_result rgw_messages(rgw_gateway *gateway, size_t *count) {
    return gateway == NULL || count == NULL ? (rgw_result)RGW_NULL : rgw_messages_nonnull(gateway, count);
}

/*
 * What is told of one of them, by its index, in their order. RGW_NO_SUCH_PLACE, RGW_NOT_OPEN.
 * Keep: one call at a time on `gateway`; `message` lies outside it.
 */
static inline rgw_result rgw_message(rgw_gateway *gateway, size_t index, rgw_message_info *message) {
    return gateway == NULL || message == NULL ? (rgw_result)RGW_NULL : rgw_message_nonnull(gateway, index, message);
}

/*
 * What became of a text of the datagram that was the last event that was taken, by its index, in the order in which they stand there; a
 * datagram of more than RGW_LARGEST_DATAGRAM bytes has none, nor has an act or a tick. RGW_NO_SUCH_PLACE, RGW_NOT_OPEN.
 * Keep: one call at a time on `gateway`; `outcome` lies outside it.
 */
static inline rgw_result rgw_outcome(rgw_gateway *gateway, size_t index, rgw_outcome_info *outcome) {
    return gateway == NULL || outcome == NULL ? (rgw_result)RGW_NULL : rgw_outcome_nonnull(gateway, index, outcome);
}

/*
 * A command of the gateway's own that was given up at the last event that was taken, since nobody answered it (RFC 3435, 4.3), by its index,
 * in their order. RGW_NO_SUCH_PLACE, RGW_NOT_OPEN.
 * Keep: one call at a time on `gateway`; `command` lies outside it.
 */
static inline rgw_result rgw_given_up(rgw_gateway *gateway, size_t index, rgw_given_up_info *command) {
    return gateway == NULL || command == NULL ? (rgw_result)RGW_NULL : rgw_given_up_nonnull(gateway, index, command);
}

/*
 * How many lines the gateway has. RGW_NOT_OPEN.
 * Keep: one call at a time on `gateway`; `lines` lies outside it.
 */
static inline rgw_result rgw_lines(rgw_gateway *gateway, uint16_t *lines) {
    return gateway == NULL || lines == NULL ? (rgw_result)RGW_NULL : rgw_lines_nonnull(gateway, lines);
}

/*
 * The hook state of a line: 0 on hook, 1 off hook. RGW_NO_SUCH_LINE, RGW_NOT_OPEN.
 * Keep: one call at a time on `gateway`; `hook` lies outside it.
 */
static inline rgw_result rgw_hook(rgw_gateway *gateway, uint16_t line, uint32_t *hook) {
    return gateway == NULL || hook == NULL ? (rgw_result)RGW_NULL : rgw_hook_nonnull(gateway, line, hook);
}

/*
 * How many events of a line found no room in its quarantine (RFC 3435, 4.4.1). RGW_NO_SUCH_LINE, RGW_NOT_OPEN.
 * Keep: one call at a time on `gateway`; `lost` lies outside it.
 */
static inline rgw_result rgw_lost(rgw_gateway *gateway, uint16_t line, uint64_t *lost) {
    return gateway == NULL || lost == NULL ? (rgw_result)RGW_NULL : rgw_lost_nonnull(gateway, line, lost);
}

/*
 * An active signal of a line, by its index, in the order of the table above. RGW_NO_SUCH_LINE, RGW_NO_SUCH_PLACE, RGW_NOT_OPEN.
 * Keep: one call at a time on `gateway`; `signal` lies outside it.
 */
static inline rgw_result rgw_signal(rgw_gateway *gateway, uint16_t line, size_t index, rgw_signal_info *signal) {
    return gateway == NULL || signal == NULL ? (rgw_result)RGW_NULL : rgw_signal_nonnull(gateway, line, index, signal);
}

/*
 * The connection at a place of a line: each line has RGW_PLACES, from 0 on (RFC 3435, 2.1.3), and each place its port, which is told
 * exactly. RGW_NO_CONNECTION where the place is empty, RGW_NO_SUCH_LINE, RGW_NO_SUCH_PLACE, RGW_NOT_OPEN.
 * Keep: one call at a time on `gateway`; `connection` lies outside it.
 */
static inline rgw_result rgw_connection(rgw_gateway *gateway, uint16_t line, uint16_t place, rgw_connection_info *connection) {
    return gateway == NULL || connection == NULL ? (rgw_result)RGW_NULL
                                                 : rgw_connection_nonnull(gateway, line, place, connection);
}

/* What a number says, in English: of any number, a text that stays. */
static inline const char *rgw_strerror(rgw_result result) {
    switch (result) {
    case RGW_OK: return "it went well";
    case RGW_OUT_OF_MEMORY: return "memory was refused";
    case RGW_TICK_TOO_FAR: return "the tick is more than 1,000 ms past the one before it";
    case RGW_CLOCK_BACK: return "the tick is before the one before it";
    case RGW_NO_SUCH_LINE: return "there is no such line";
    case RGW_PHONE_STATE: return "the hook state rules the act out";
    case RGW_BAD_DOMAIN: return "configuration: the domain is none";
    case RGW_BAD_LINES: return "configuration: there are not 1 to 96 lines";
    case RGW_BAD_AGENT: return "configuration: a host's name or the agent is none, or there are too many";
    case RGW_BAD_WAIT: return "configuration: a wait is not 1 to 600,000 ms";
    case RGW_BAD_MEDIA: return "configuration: the lowest media port is none";
    case RGW_BAD_TOML: return "configuration: it can't be read";
    case RGW_TOO_LONG: return "configuration: it is longer than 1,048,576 bytes";
    case RGW_NOT_OPEN: return "the handle isn't open";
    case RGW_IS_OPEN: return "the handle is open already";
    case RGW_BAD_FIRST: return "ids begin with 0 to 9,999,998";
    case RGW_BAD_ACT: return "there is no such act";
    case RGW_NO_SUCH_PLACE: return "nothing is there";
    case RGW_SMALL_BUFFER: return "the buffer is too small";
    case RGW_NO_CONNECTION: return "no connection is at this place";
    case RGW_NOTHING_DUE: return "nothing is due";
    case RGW_HAS_FLAW: return "the configuration has a flaw";
    case RGW_NULL: return "a pointer is null";
    default: return "no number of rgw.h";
    }
}

#ifdef __cplusplus
}
#endif

#endif
