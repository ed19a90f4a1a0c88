/* Calls parlour_run on buffers of all kinds: what it returns, what it writes, and what it leaves. Prints what is wrong; tests/c_host compiles and runs it. */
#include "parlour.h"

#include <stdio.h>
#include <string.h>

enum { ROOM = PARLOUR_ANSWER_BYTES * PARLOUR_MOST_BYTES + 7 };

static uint8_t out[ROOM], want[ROOM], file[PARLOUR_MOST_BYTES + 1];
static int wrong;

/* A run of n bytes into the first room bytes of a buffer of 0xEE, of which the first k are to become those of bytes. */
static void expect(const char *name, const uint8_t *steps, size_t n, size_t room, uint64_t number, uint64_t answers, const uint8_t *bytes) {
    memset(out, 0xEE, sizeof out);
    memset(want, 0xEE, sizeof want);
    if (bytes)
        memcpy(want, bytes, 5 * answers);
    uint64_t r = parlour_run(steps, n, out, room);
    if (r != 65536 * number + answers) {
        printf("%s: returned %llu, not %llu\n", name, (unsigned long long)r, (unsigned long long)(65536 * number + answers));
        wrong = 1;
    }
    if (memcmp(out, want, sizeof out)) {
        printf("%s: the buffer is not as it should be\n", name);
        wrong = 1;
    }
}

int main(void) {
    /* open 2, begin, write 1 0 0x04030201, latest 0, commit 1, latest 0 */
    static const uint8_t good[] = {0, 2, 0, 1, 3, 1, 0, 0, 0, 1, 2, 3, 4, 6, 0, 0, 4, 1, 0, 6, 0, 0};
    static const uint8_t good_out[] = {0, 0, 0, 0, 0, 0, 1, 0, 0, 0, 0, 0, 0, 0, 0, 0, 0, 0, 0, 0, 0, 2, 0, 0, 0, 0, 1, 2, 3, 4};
    /* open 1, begin, a cut commit at offset 4 */
    static const uint8_t bad[] = {0, 1, 0, 1, 4, 1};
    static const uint8_t bad_out[] = {0, 0, 0, 0, 0, 0, 1, 0, 0, 0, 10, 4, 0, 0, 0};

    expect("six answers", good, sizeof good, 30, 0, 6, good_out);
    expect("six answers, a larger buffer", good, sizeof good, sizeof out, 0, 6, good_out);
    expect("six answers, 29 bytes", good, sizeof good, 29, 12, 0, NULL);
    expect("six answers, no byte", good, sizeof good, 0, 12, 0, NULL);
    expect("no step", good, 0, sizeof out, 0, 0, NULL);
    expect("no step, no byte", good, 0, 0, 0, 0, NULL);
    expect("a bad step", bad, sizeof bad, 15, 10, 3, bad_out);
    expect("a bad step, 14 bytes: 12 goes before 10", bad, sizeof bad, 14, 12, 0, NULL);

    /* 8,192 begins before any opening; then one byte more; then a last step that is cut */
    memset(file, 1, sizeof file);
    static uint8_t ones[5 * PARLOUR_MOST_BYTES];
    for (size_t i = 0; i < PARLOUR_MOST_BYTES; i++)
        ones[5 * i] = 1;
    expect("8,192 bytes", file, 8192, 40960, 0, 8192, ones);
    expect("8,192 bytes, 40,959 bytes", file, 8192, 40959, 12, 0, NULL);
    expect("8,193 bytes", file, 8193, sizeof out, 11, 0, NULL);
    expect("8,193 bytes, no byte: 11 goes before 12", file, 8193, 0, 11, 0, NULL);
    file[8191] = 3;
    memcpy(ones + 5 * 8191, (const uint8_t[]){10, 0xFF, 0x1F, 0, 0}, 5);
    expect("8,192 bytes, the last a cut step", file, 8192, 40960, 10, 8192, ones);

    /* each call starts from the closed state */
    static const uint8_t begin[] = {1};
    static const uint8_t begin_out[] = {1, 0, 0, 0, 0};
    expect("begin before open", begin, 1, 5, 0, 1, begin_out);
    return wrong;
}
