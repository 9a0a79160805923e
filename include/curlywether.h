/* Curlywether: the booking core of an optical burst ring, one link in memory that the caller lends.
 *
 * Every function below ends, touches nothing but what it is lent, asks nothing of its input, and refuses by number. For every input
 * its answer, the memory after it and the tally after it are each a single value; that is proved (docs/PROMISES.md). What C adds is
 * unproved: pass pointers to as many elements as you say, and do not lend one memory to two calls at once.
 *
 * The records and what to do about each code: docs/DOORS.md. */
#ifndef CURLYWETHER_H
#define CURLYWETHER_H

#include <stddef.h>
#include <stdint.h>

#ifdef __cplusplus
extern "C" {
#endif

/* The codes of document 01. Under every code but 0 the link's memory is left as it stood, byte for byte. */
enum curlywether_code {
    CURLYWETHER_DONE = 0,               /* opened, booked or swept */
    CURLYWETHER_OUT_OF_BOUNDS = 1,      /* opening: a bound is broken, or the memory is smaller than its need */
    CURLYWETHER_NOT_WHOLE = 2,          /* the memory does not hold a whole link */
    CURLYWETHER_NO_LENGTH = 3,          /* length 0 */
    CURLYWETHER_BEFORE_FLOOR = 4,       /* arrival before the floor */
    CURLYWETHER_NO_SUCH_LINE = 5,       /* a bit is set for a line that the link lacks */
    CURLYWETHER_PAST_LAST_MOMENT = 6,   /* arrival + length is past the last moment */
    CURLYWETHER_NOTHING_FITS = 7,       /* nothing fits at any start tried */
    CURLYWETHER_ROOM_FULL = 8,          /* the void taken leaves two pieces and the room is full */
    CURLYWETHER_SWEEP_BEFORE_FLOOR = 9, /* sweep moment before the floor: the clock went back */
    CURLYWETHER_LEAP_TOO_FAR = 10,      /* sweep moment more than the leap past the floor */
    CURLYWETHER_NO_RECORD = 11,         /* unknown mark, a mark that is not for this call, a record cut short, no byte at all */
    CURLYWETHER_NO_ROOM_FOR_ANSWER = 12 /* a run: bytes remain and fewer than seven numbers of room */
};

/* The bytes that a link of this room needs; 96 * room + 256 is always enough. Memory past the need is never written.
 * Any alignment is right. Memory that starts at a multiple of 64 bytes is fastest: a place of the room is then one line of the cache. */
#define CURLYWETHER_NEED(room) (64 * (size_t)(room) + 256)

static inline size_t curlywether_need(uint64_t room) {
    return CURLYWETHER_NEED(room);
}

/* The seven numbers of an answer. A refusal has 0 in all but code and count, a sweep in all but dropped. */
typedef struct curlywether_answer {
    uint64_t code;
    uint64_t channel;
    uint64_t line; /* 0: undelayed */
    uint64_t start;
    uint64_t finish;
    uint64_t count; /* tree nodes visited, exactly those of the published search */
    uint64_t dropped;
} curlywether_answer;

/* One count for bookings, one for sweeps, one for each of codes 3 to 10. Each order acted on raises exactly one; a count at
 * 2^64 - 1 stays there. Codes 1, 2, 11 and 12 raise none. Begin with zeros. */
typedef struct curlywether_tally {
    uint64_t bookings;
    uint64_t sweeps;
    uint64_t code3;
    uint64_t code4;
    uint64_t code5;
    uint64_t code6;
    uint64_t code7;
    uint64_t code8;
    uint64_t code9;
    uint64_t code10;
} curlywether_tally;

typedef struct curlywether_opened {
    uint64_t code;
    size_t used; /* bytes of the record; 0 under a refusal */
} curlywether_opened;

typedef struct curlywether_acted {
    curlywether_answer answer;
    size_t used; /* bytes of the record; 0 under 2 and 11 */
} curlywether_acted;

typedef struct curlywether_ran {
    uint64_t code;   /* what ended the run; 0 at its end */
    size_t place;    /* of the first byte not acted on */
    size_t answered; /* records answered, seven numbers each */
} curlywether_ran;

typedef struct curlywether_told {
    uint64_t code;
    uint64_t voids;
} curlywether_told;

/* Opens a link from the OL record at the start of a buffer, in memory of any content. Codes 0, 1, 11. */
curlywether_opened curlywether_open(uint8_t *memory, size_t bytes, uint64_t room, const uint8_t *record, size_t length);

/* Acts on the single record (OB, OC or OS) at the start of a buffer; bytes after the record are not read. Codes 0, 2 to 11. */
curlywether_acted curlywether_act(uint8_t *memory, size_t bytes, curlywether_tally *tally, const uint8_t *record, size_t length);

/* Acts on a run of records, writing seven numbers for each into answers; the memory is checked once, at the start. The unused part of
 * answers is untouched. Ends with code 0 at the end of the records, or with 2, 11 or 12. */
curlywether_ran curlywether_run(uint8_t *memory, size_t bytes, curlywether_tally *tally, const uint8_t *records, size_t length,
                                uint64_t *answers, size_t numbers);

/* Tells the number of voids kept, with code 0; or 0 voids with code 2. */
curlywether_told curlywether_tell(const uint8_t *memory, size_t bytes);

#ifdef __cplusplus
}
#endif

#endif
