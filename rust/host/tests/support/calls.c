/* A few calls over the header, in C and in C++. It prints what was not as expected. */
#include "murgwethan.h"

#include <stdio.h>
#include <string.h>

#define CAPACITY 8
#define BASE 4096

static int failures = 0;

static void check(int holds, const char *what, int line) {
    if (!holds) {
        printf("line %d: %s\n", line, what);
        failures += 1;
    }
}

#define CHECK(what) check((what), #what, __LINE__)

static struct murgwethan_pair pair;
static uint8_t rings[2][CAPACITY];
static uint32_t tables[2][CAPACITY];

static int64_t create(uint32_t kind, uint32_t capacity) {
    return murgwethan_create(&pair, kind, capacity, 7, MURGWETHAN_RIGHT_READ, rings[0], CAPACITY, tables[0], CAPACITY,
                             rings[1], CAPACITY, tables[1], CAPACITY);
}

/* End 1 writes, as end 2 has no right to. */
static int64_t write_text(const char *text) {
    return murgwethan_write(&pair, 1, rings[1], CAPACITY, tables[1], CAPACITY, (const uint8_t *)text, strlen(text));
}

static int64_t read_text(uint8_t *buffer, size_t len, bool peek) {
    return murgwethan_read(&pair, 2, peek, rings[1], CAPACITY, tables[1], CAPACITY, buffer, len);
}

static void stream(void) {
    uint8_t buffer[CAPACITY] = {0};
    uint64_t packet[5];
    CHECK(murgwethan_wait(&pair, 2, 1, 1, 0) == MURGWETHAN_ERR_INTERNAL);
    CHECK(create(MURGWETHAN_STREAM, CAPACITY + 1) == MURGWETHAN_ERR_INVALID_ARGS);
    CHECK(create(MURGWETHAN_STREAM, CAPACITY) == 0);
    CHECK(murgwethan_wait(&pair, 2, 77, MURGWETHAN_SIGNAL_READABLE, 0) == 0);
    CHECK(murgwethan_wait(&pair, 2, 78, MURGWETHAN_SIGNAL_PEER_CLOSED, 0) == 0);
    CHECK(murgwethan_cancel(&pair, 2, 78) == 1 && murgwethan_cancel(&pair, 2, 78) == MURGWETHAN_ERR_NOT_FOUND);
    CHECK(murgwethan_take(&pair, packet) == MURGWETHAN_ERR_SHOULD_WAIT);
    CHECK(write_text("abcdefghij") == CAPACITY);
    CHECK(murgwethan_signal(&pair, 1) == 0);
    CHECK(murgwethan_take(&pair, packet) == 0);
    CHECK(packet[0] == 77 && packet[1] == MURGWETHAN_SIGNAL_READABLE && packet[3] == 1);
    CHECK(packet[2] == (MURGWETHAN_SIGNAL_READABLE | MURGWETHAN_SIGNAL_WRITABLE));
    CHECK(read_text(buffer, 3, true) == 3 && memcmp(buffer, "abc", 3) == 0);
    CHECK(read_text(buffer, CAPACITY, false) == CAPACITY && memcmp(buffer, "abcdefgh", CAPACITY) == 0);
    CHECK(murgwethan_close(&pair, 1) == 0);
    CHECK(murgwethan_signal(&pair, 2) == MURGWETHAN_SIGNAL_PEER_CLOSED);
    CHECK(read_text(buffer, CAPACITY, false) == MURGWETHAN_ERR_PEER_CLOSED);
    CHECK(write_text("a") == MURGWETHAN_ERR_BAD_HANDLE);
}

static void datagram(void) {
    uint8_t buffer[CAPACITY] = {0};
    uint64_t numbers[6];
    CHECK(create(MURGWETHAN_DATAGRAM, CAPACITY) == 0);
    CHECK(write_text("abc") == 3 && write_text("de") == 2);
    CHECK(murgwethan_info(&pair, 2, tables[1], CAPACITY, numbers) == 0);
    CHECK(numbers[0] == MURGWETHAN_DATAGRAM && numbers[1] == CAPACITY && numbers[2] == 5 && numbers[3] == 3);
    CHECK(read_text(buffer, 2, false) == 2 && memcmp(buffer, "ab", 2) == 0);
    CHECK(pair.two.queue.bytes.count == 2 && pair.two.queue.lengths.count == 1);
    CHECK(murgwethan_set_read_threshold(&pair, 2, 2) == 0);
    CHECK(murgwethan_thresholds(&pair, 2, numbers) == 0 && numbers[0] == 2 && numbers[1] == 0);
    CHECK(murgwethan_shutdown(&pair, 1, false, true) == 0);
    CHECK(write_text("f") == MURGWETHAN_ERR_BAD_STATE);
}

static void user_memory(void) {
    uint8_t memory[24] = "row";
    CHECK(create(MURGWETHAN_STREAM, CAPACITY) == 0);
    CHECK(murgwethan_user_write(&pair, 1, 0, BASE, memory, sizeof memory, BASE, 3, BASE + 8, rings[1], CAPACITY,
                                tables[1], CAPACITY) == 3);
    CHECK(memory[8] == 3 && memory[9] == 0);
    CHECK(murgwethan_user_read(&pair, 2, MURGWETHAN_PEEK, BASE, memory, sizeof memory, BASE + 16, 8, 0, rings[1],
                               CAPACITY, tables[1], CAPACITY) == 3);
    CHECK(memcmp(memory + 16, "row", 3) == 0);
    CHECK(murgwethan_user_shutdown(&pair, 2, MURGWETHAN_SHUTDOWN_WRITE) == MURGWETHAN_ERR_ACCESS_DENIED);
    CHECK(murgwethan_user_set_disposition(&pair, 1, MURGWETHAN_DISABLE, MURGWETHAN_UNCHANGED) == 0);
    CHECK(murgwethan_user_set_disposition(&pair, 1, MURGWETHAN_ENABLE, MURGWETHAN_UNCHANGED) ==
          MURGWETHAN_ERR_BAD_STATE);
    CHECK(murgwethan_set_write_threshold(&pair, 1, CAPACITY + 1) == MURGWETHAN_ERR_INVALID_ARGS);
    CHECK(murgwethan_set_disposition(&pair, 2, MURGWETHAN_DISABLE, MURGWETHAN_UNCHANGED) == 0);
}

int main(void) {
    stream();
    datagram();
    user_memory();
    return failures != 0;
}
