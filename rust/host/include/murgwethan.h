/*
 * The socket pair of the static library libhost.a, for C and C++ on x86-64: the records and calls that it exports.
 *
 * A pair is a record that the caller keeps, and for each end a ring of bytes and, on datagram pairs, a table of
 * lengths, each of at least `capacity` entries. What one end writes, the other reads. Each call answers one number: a
 * count, 0 for a call without one, or a status, which is negative. A refused call changes nothing.
 *
 * What the caller keeps:
 * - A pointer is never null, also with a length of 0, and aligned; its memory is valid for the length, in entries.
 *   Nothing that is lent to one call overlaps. `bool` is a byte of 0 or 1, also in the record.
 * - A record is all zeros before `murgwethan_create`, and only the calls write it afterwards.
 * - One caller at a time on a pair: a lock is the caller's.
 * - Each end keeps its own ring and table from create on, and nobody else writes them. A write is lent those of the
 *   peer; a read and an info those of the end itself.
 *
 * Statuses stand in the order of their tests. Every call but create begins with these, which are not said again:
 * INTERNAL for a record that no run leaves; where a ring or a table is lent to it and the handle is 1 or 2,
 * INVALID_ARGS if one that is used has fewer entries than the capacity, and INTERNAL if the first length in the table
 * is 0 or above the bytes queued there. Tables are used on datagram pairs only. BAD_HANDLE: the handle is neither 1 nor
 * 2, or its end is closed.
 */
#ifndef MURGWETHAN_H
#define MURGWETHAN_H

#include <stdbool.h>
#include <stddef.h>
#include <stdint.h>

#ifdef __cplusplus
extern "C" {
#endif

/* Statuses. */
enum {
    MURGWETHAN_ERR_INTERNAL = -1,
    MURGWETHAN_ERR_NO_RESOURCES = -3,
    MURGWETHAN_ERR_INVALID_ARGS = -10,
    MURGWETHAN_ERR_BAD_HANDLE = -11,
    MURGWETHAN_ERR_OUT_OF_RANGE = -14,
    MURGWETHAN_ERR_BAD_STATE = -20,
    MURGWETHAN_ERR_SHOULD_WAIT = -22,
    MURGWETHAN_ERR_PEER_CLOSED = -24,
    MURGWETHAN_ERR_NOT_FOUND = -25,
    MURGWETHAN_ERR_ACCESS_DENIED = -30
};

/* Bits of a signal word. */
enum {
    MURGWETHAN_SIGNAL_READABLE = 0x1,
    MURGWETHAN_SIGNAL_WRITABLE = 0x2,
    MURGWETHAN_SIGNAL_PEER_CLOSED = 0x4,
    MURGWETHAN_SIGNAL_PEER_WRITE_DISABLED = 0x10,
    MURGWETHAN_SIGNAL_WRITE_DISABLED = 0x20,
    MURGWETHAN_SIGNAL_READ_THRESHOLD = 0x400,
    MURGWETHAN_SIGNAL_WRITE_THRESHOLD = 0x800
};

/* Bits of a rights word. Only the calls over user memory ask for rights. */
enum {
    MURGWETHAN_RIGHT_READ = 0x1,
    MURGWETHAN_RIGHT_WRITE = 0x2,
    MURGWETHAN_RIGHT_MANAGE = 0x4
};

/* Kinds of a pair, dispositions, options of the calls over user memory, limits. */
enum {
    MURGWETHAN_STREAM = 0,
    MURGWETHAN_DATAGRAM = 1,
    MURGWETHAN_UNCHANGED = 0,
    MURGWETHAN_DISABLE = 1,
    MURGWETHAN_ENABLE = 2,
    MURGWETHAN_SHUTDOWN_WRITE = 0x1,
    MURGWETHAN_SHUTDOWN_READ = 0x2,
    MURGWETHAN_PEEK = 8,
    MURGWETHAN_PLACES = 128,
    MURGWETHAN_MOST_CAPACITY = 262144
};

/* A queue's place in a ring or table: where it starts and how many entries it has. */
struct murgwethan_span {
    uint32_t start;
    uint32_t count;
};

/* The queued bytes in the ring, and on datagram pairs their lengths in the table. */
struct murgwethan_queue {
    struct murgwethan_span bytes;
    struct murgwethan_span lengths;
};

/* The thresholds of an end; 0 is none. */
struct murgwethan_thresholds {
    uint64_t read;
    uint64_t write;
};

/* One end of a pair. */
struct murgwethan_endpoint {
    bool closed;
    bool read_disabled;
    uint16_t rights;
    uint32_t signals;
    struct murgwethan_thresholds thresholds;
    struct murgwethan_queue queue;
};

/* A wait or its packet; all 0 where there is none. `end` is 1 or 2. */
struct murgwethan_place {
    uint64_t key;
    uint32_t mask;
    uint32_t observed;
    uint64_t end;
};

/* The packets stand first, oldest first; behind them the waits, oldest first. */
struct murgwethan_places {
    size_t packets;
    size_t waits;
    struct murgwethan_place table[128];
};

/*
 * Both ends of a pair, and the places of its waits and packets. It holds no byte that was written, and no padding: the
 * spare fields stand where there would be some. Create sets them to 0, and every other call keeps them.
 */
struct murgwethan_pair {
    struct murgwethan_endpoint one;
    struct murgwethan_endpoint two;
    bool datagram;
    uint8_t spare1;
    uint16_t spare2;
    uint32_t capacity;
    struct murgwethan_places places;
};

/*
 * Makes a new pair of a kind and a capacity, with a rights word for each end. It looks at the lengths of the rings and
 * tables only. INVALID_ARGS: another kind, a capacity of 0 or above MURGWETHAN_MOST_CAPACITY, a rights word above 7, a
 * ring or on datagram pairs a table with fewer entries than the capacity.
 */
int64_t murgwethan_create(struct murgwethan_pair *p, uint32_t kind, uint32_t capacity, uint32_t rights_one,
                          uint32_t rights_two, const uint8_t *ring_one, size_t ring_one_len, const uint32_t *table_one,
                          size_t table_one_len, const uint8_t *ring_two, size_t ring_two_len,
                          const uint32_t *table_two, size_t table_two_len);

/*
 * Writes to the peer's queue and answers how many bytes were taken: of a stream as many as there is space for, a
 * datagram whole. The ring and the table are the peer's. BAD_HANDLE; INVALID_ARGS: more than 4294967295 bytes;
 * BAD_STATE: writing is disabled; PEER_CLOSED; SHOULD_WAIT: the queue is full. Datagrams: OUT_OF_RANGE: larger than the
 * capacity; SHOULD_WAIT: larger than the space; INVALID_ARGS: empty.
 */
int64_t murgwethan_write(struct murgwethan_pair *p, uint32_t handle, uint8_t *ring, size_t ring_len, uint32_t *table,
                         size_t table_len, const uint8_t *bytes, size_t bytes_len);

/*
 * Reads from the end's own queue and answers how many bytes were delivered; with `peek` they stay queued. Of a
 * datagram, what the buffer does not hold is dropped. The ring and the table are the end's own. BAD_HANDLE; where
 * nothing is queued PEER_CLOSED, BAD_STATE if reading is disabled, SHOULD_WAIT.
 */
int64_t murgwethan_read(struct murgwethan_pair *p, uint32_t handle, bool peek, const uint8_t *ring, size_t ring_len,
                        const uint32_t *table, size_t table_len, uint8_t *buffer, size_t buffer_len);

/*
 * Disables, enables or leaves the writing of an end and of its peer. BAD_HANDLE; INVALID_ARGS: a number above 2;
 * BAD_STATE: writing would be enabled while bytes are queued that were sent before it was disabled.
 */
int64_t murgwethan_set_disposition(struct murgwethan_pair *p, uint32_t handle, uint32_t disposition,
                                   uint32_t peer_disposition);

/* Ends the reading or the writing of an end; an open peer gets the same with both flags negated. BAD_HANDLE. */
int64_t murgwethan_shutdown(struct murgwethan_pair *p, uint32_t handle, bool read, bool write);

/*
 * Sets from how many queued bytes on READ_THRESHOLD shows; 0 for never. BAD_HANDLE; INVALID_ARGS: above the capacity.
 */
int64_t murgwethan_set_read_threshold(struct murgwethan_pair *p, uint32_t handle, uint64_t threshold);

/*
 * Sets from how much space on WRITE_THRESHOLD shows; 0 for never. BAD_HANDLE; PEER_CLOSED; INVALID_ARGS: above the
 * capacity.
 */
int64_t murgwethan_set_write_threshold(struct murgwethan_pair *p, uint32_t handle, uint64_t threshold);

/* Puts out the read and the write threshold. BAD_HANDLE. */
int64_t murgwethan_thresholds(struct murgwethan_pair *p, uint32_t handle, uint64_t out[2]);

/*
 * Puts out options, capacity, queued, available, and the peer's capacity and queued, both 0 if it is closed. The table
 * is the end's own. BAD_HANDLE.
 */
int64_t murgwethan_info(struct murgwethan_pair *p, uint32_t handle, const uint32_t *table, size_t table_len,
                        uint64_t out[6]);

/*
 * Registers a wait for one signal of a mask; with edge 1 those that are there now do not count until the word changes.
 * BAD_HANDLE; INVALID_ARGS: edge is neither 0 nor 1; NO_RESOURCES: all places are used.
 */
int64_t murgwethan_wait(struct murgwethan_pair *p, uint32_t handle, uint64_t key, uint32_t mask, uint8_t edge);

/* Takes the oldest packet: key, trigger, observed, count, timestamp. SHOULD_WAIT: there is none. */
int64_t murgwethan_take(struct murgwethan_pair *p, uint64_t out[5]);

/*
 * Removes every wait of an end that has this key, all 64 bits of it, and every packet that such a wait made and that
 * was not taken; answers how many these were, at least 1. What is left keeps its order, and as many places are free
 * again. BAD_HANDLE; NOT_FOUND: the end has no wait and no packet with this key.
 */
int64_t murgwethan_cancel(struct murgwethan_pair *p, uint32_t handle, uint64_t key);

/* Closes an end: its queue and its waits are gone, and an open peer is told by its signal word. BAD_HANDLE. */
int64_t murgwethan_close(struct murgwethan_pair *p, uint32_t handle);

/* Answers the signal word of an end. BAD_HANDLE. */
int64_t murgwethan_signal(struct murgwethan_pair *p, uint32_t handle);

/*
 * Writes bytes of user memory, a slice at a base address, and lands the count of those taken there, 8 bytes with the
 * lowest first, unless `count_at` is 0. INVALID_ARGS: options other than 0, or the address 0 with a count above 0;
 * BAD_HANDLE; ACCESS_DENIED without the right to write; the statuses of a write; INVALID_ARGS: the bytes that it would
 * take, or the count, do not lie in user memory.
 */
int64_t murgwethan_user_write(struct murgwethan_pair *p, uint32_t handle, uint32_t options, uint64_t base,
                              uint8_t *memory, size_t memory_len, uint64_t address, uint64_t count, uint64_t count_at,
                              uint8_t *ring, size_t ring_len, uint32_t *table, size_t table_len);

/*
 * Reads into user memory, and lands the count over the bytes as a write does; with options MURGWETHAN_PEEK the bytes
 * stay queued. INVALID_ARGS: the address 0 with a count above 0, or other options; BAD_HANDLE; ACCESS_DENIED without
 * the right to read; INVALID_ARGS: as many bytes as the count asks for, or the count, do not lie in user memory; the
 * statuses of a read.
 */
int64_t murgwethan_user_read(struct murgwethan_pair *p, uint32_t handle, uint32_t options, uint64_t base,
                             uint8_t *memory, size_t memory_len, uint64_t address, uint64_t count, uint64_t count_at,
                             const uint8_t *ring, size_t ring_len, const uint32_t *table, size_t table_len);

/*
 * The disposition as a system call. INVALID_ARGS: a number above 2; BAD_HANDLE; ACCESS_DENIED without the right to
 * manage; BAD_STATE.
 */
int64_t murgwethan_user_set_disposition(struct murgwethan_pair *p, uint32_t handle, uint32_t disposition,
                                        uint32_t peer_disposition);

/*
 * The shutdown as a system call, by the bits MURGWETHAN_SHUTDOWN_WRITE and MURGWETHAN_SHUTDOWN_READ; others are
 * ignored. BAD_HANDLE; ACCESS_DENIED without the right to write.
 */
int64_t murgwethan_user_shutdown(struct murgwethan_pair *p, uint32_t handle, uint32_t options);

#ifdef __cplusplus
}
#endif

#endif
