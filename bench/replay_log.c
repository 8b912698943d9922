/* A full log for the timing of crates/replay: 3,000 records, each of them a frame that gets a reply. Writes it to standard output: replay_log NOTES POWER-ON
   Whole sessions follow each other: serial requests, an unlock, an answer, reads and writes of every setting, a commit. Some answers are wrong, some
   values not legal, some commits fail, and some change the identifiers. */
#include <stdint.h>
#include <stdio.h>
#include <stdlib.h>
#include <string.h>

enum { NOTES = 4096, BLOCK = 48, RECORDS = 3000, RECORD = 20, TRAILER = 16 };

static uint8_t bytes[NOTES + BLOCK + RECORDS * RECORD + TRAILER];
static uint8_t *end = bytes;
static int left = RECORDS;
static uint32_t at, receive;

static uint32_t random_below(uint32_t n) {
    static uint64_t state = 88172645463325252u;
    state ^= state << 13;
    state ^= state >> 7;
    state ^= state << 17;
    return (uint32_t)(state >> 32) % n;
}

static void put32(uint32_t n) {
    for (int shift = 24; shift >= 0; shift -= 8) *end++ = (uint8_t)(n >> shift);
}

static void put_zeros(int n) {
    while (n-- > 0) *end++ = 0;
}

static void frame(uint32_t later, int kind, int length, const uint8_t *data) {
    if (left == 0) return;
    left--;
    at += later;
    put32(at);
    *end++ = (uint8_t)kind;
    *end++ = 1;
    *end++ = (uint8_t)length;
    *end++ = 0;
    put32(receive);
    memcpy(end, data, (size_t)length);
    end += length;
    put_zeros(8 - length);
}

static const uint8_t serial[16] = {0x5A, 0x01, 0xC3, 0x7E, 0x10, 0x94, 0xAB, 0xFF, 0x00, 0x28, 0x61, 0xD2, 0x0E, 0x33, 0x87, 0xB9};
static const uint8_t constants[7] = {0x53, 0x4E, 0x44, 0x53, 0x49, 0x4D, 0x42};
static const uint8_t codes[6] = {0x15, 0x16, 0x17, 0x18, 0x19, 0x20};

static void answer(int wrong) {
    uint8_t data[8] = {0x14};
    for (int i = 0; i < 7; i++) data[i + 1] = serial[i] ^ constants[i];
    data[7] ^= (uint8_t)wrong;
    frame(100 + random_below(1900), 0, 8, data);
}

/* A value that is legal more often than not, for a rating of 1000. */
static uint32_t value_for(int setting) {
    switch (setting) {
    case 0: case 1: return 0x0A100000 + random_below(0x20000);
    case 2: return random_below(2) ? 0x00CA0250 : 0x00CA0500;
    case 3: return random_below(1100);
    default: return random_below(4) ? 1 + random_below(1000) : random_below(0x90000000);
    }
}

static void session(void) {
    static const uint8_t unlock[3] = {0x14, 0x28, 0xD5}, commit[3] = {0x14, 0x9A, 0x28};
    uint32_t draft = receive;
    for (int n = (int)random_below(4); n > 0; n--) {
        uint8_t ask[3] = {(uint8_t)(0x08 + random_below(4))};
        frame(50 + random_below(950), 0, random_below(2) ? 1 : 3, ask);
    }
    if (random_below(8) == 0) {
        frame(50 + random_below(950), 0, 3, unlock);
        answer(1);
    }
    frame(50 + random_below(950), 0, 3, unlock);
    answer(0);
    for (int n = 4 + (int)random_below(12); n > 0; n--) {
        int setting = (int)random_below(6);
        uint32_t value = value_for(setting);
        uint8_t data[5] = {codes[setting], (uint8_t)(value >> 24), (uint8_t)(value >> 16), (uint8_t)(value >> 8), (uint8_t)value};
        int writes = (int)random_below(2);
        frame(50 + random_below(1950), 0, writes ? 5 : 1, data);
        if (writes && setting == 0) draft = value;
    }
    int failing = random_below(10) == 0;
    frame(50 + random_below(1950), failing, 3, commit);
    if (!failing) receive = draft;
}

int main(int argc, char **argv) {
    uint32_t notes = argc == 3 ? (uint32_t)strtoul(argv[1], NULL, 10) : NOTES + 1;
    if (notes > NOTES) {
        fputs("usage: replay_log NOTES POWER-ON   up to 4096 bytes of notes, the stamp of power-on\n", stderr);
        return 2;
    }
    at = (uint32_t)strtoul(argv[2], NULL, 10);
    receive = 0x0A100101;
    for (uint32_t i = 0; i < notes; i++) *end++ = (uint8_t)(' ' + random_below(95));
    put32(at);
    memcpy(end, serial, sizeof serial);
    end += sizeof serial;
    *end++ = 1000 / 256;
    *end++ = 1000 % 256;
    const uint32_t settings[6] = {receive, 0x0A100100, 0x00CA0500, 0, 500, 100};
    for (int i = 0; i < 6; i++) put32(settings[i]);
    put_zeros(2);
    while (left > 0) session();
    put32(notes);
    put32(RECORDS);
    put32((uint32_t)(end - bytes) + 8);
    memcpy(end, "BLOG", 4);
    end += 4;
    return fwrite(bytes, 1, (size_t)(end - bytes), stdout) == (size_t)(end - bytes) ? 0 : 1;
}
