/* The sessions of crates/monitor_bench on a plain state machine, as one would write it by hand. Prints the same sum.
   The monitor is changed in place; with -DBY_VALUE it is passed and returned, as in the crate. The calls are those of a library: not inlined. */
#include <stdbool.h>
#include <stdint.h>
#include <stdio.h>
#include <string.h>

typedef struct { bool extended; uint32_t identifier; uint8_t length; uint8_t bytes[8]; } Frame;
typedef struct { uint32_t value[6]; } Settings; /* rx, tx, speed, voltage, warning, fault */
enum Phase { LOCKED, CHALLENGED, IN_SESSION };
typedef struct {
    uint8_t serial[16];
    uint16_t rating;
    Settings stored, draft;
    uint32_t start, since, last;
    enum Phase phase;
} Monitor;

#ifdef BY_VALUE
#define LIBRARY static
#else
#define LIBRARY __attribute__((noinline)) static
#endif

static const uint8_t key[7] = {0x53, 0x4E, 0x44, 0x53, 0x49, 0x4D, 0x42};

static int refused(const Monitor *m, uint32_t at, const Frame *f) {
    if (f && (f->length > 8 || f->identifier > (f->extended ? 0x1FFFFFFFu : 0x7FFu))) return 1;
    return at < m->last ? 7 : 0;
}

static void start(Monitor *m, uint32_t at) { m->start = at; m->phase = LOCKED; }

static void say(const Monitor *m, Frame *reply, uint8_t length, const uint8_t *bytes) {
    *reply = (Frame){true, m->stored.value[1], length, {0}};
    memcpy(reply->bytes, bytes, length);
}
static void ack(const Monitor *m, Frame *reply) { say(m, reply, 3, (const uint8_t[]){0x41, 0x43, 0x4B}); }
static void nak(const Monitor *m, Frame *reply) { say(m, reply, 3, (const uint8_t[]){0x4E, 0x41, 0x4B}); }

static int index_of(uint8_t code) { return code >= 0x15 && code <= 0x19 ? code - 0x15 : code == 0x20 ? 5 : -1; }

static bool legal(const Monitor *m, int i, uint32_t v) {
    switch (i) {
    case 0: case 1: return v <= 0x1FFFFFFFu;
    case 2: return v == 0x00CA0250 || v == 0x00CA0500;
    case 3: return v >= 1 && v < m->rating;
    default: return v >= 1 && v <= 2147483647u;
    }
}

static bool right(const Monitor *m, const Frame *f) {
    for (int i = 0; i < 7; i++)
        if (f->bytes[i + 1] != (m->serial[i] ^ key[i])) return false;
    return true;
}

static bool is3(const Frame *f, uint8_t a, uint8_t b, uint8_t c) {
    return f->length == 3 && f->bytes[0] == a && f->bytes[1] == b && f->bytes[2] == c;
}

static void outside(Monitor *m, uint32_t at, const Frame *f, Frame *reply) {
    uint8_t b = f->bytes[0];
    if (is3(f, 0x14, 0x28, 0xD5)) {
        if ((uint64_t)at > (uint64_t)m->start + 10000) { m->phase = LOCKED; nak(m, reply); return; }
        uint8_t c[8] = {0x14};
        memcpy(c + 1, m->serial, 7);
        m->phase = CHALLENGED;
        m->since = at;
        say(m, reply, 8, c);
    } else if (f->length == 8 && b == 0x14) {
        if (m->phase != CHALLENGED) return;
        if (right(m, f) && (uint64_t)at <= (uint64_t)m->since + 2000) {
            m->phase = IN_SESSION;
            m->since = at;
            m->draft = m->stored;
            ack(m, reply);
        } else { m->phase = LOCKED; nak(m, reply); }
    } else if ((f->length == 1 || f->length == 3) && b >= 0x08 && b <= 0x0B) {
        uint8_t c[5] = {b};
        memcpy(c + 1, m->serial + 4 * (0x0B - b), 4);
        say(m, reply, 5, c);
    }
}

static void inside(Monitor *m, uint32_t at, bool storing, const Frame *f, Frame *reply) {
    int i = index_of(f->bytes[0]);
    m->since = at;
    if (f->length == 1 && i >= 0) {
        uint32_t v = m->draft.value[i];
        say(m, reply, 5, (const uint8_t[]){f->bytes[0], v >> 24, v >> 16, v >> 8, v});
    } else if (f->length == 5 && i >= 0) {
        uint32_t v = (uint32_t)f->bytes[1] << 24 | (uint32_t)f->bytes[2] << 16 | (uint32_t)f->bytes[3] << 8 | f->bytes[4];
        if (legal(m, i, v)) { m->draft.value[i] = v; ack(m, reply); } else nak(m, reply);
    } else if (is3(f, 0x14, 0x9A, 0x28)) {
        if (storing) ack(m, reply); else nak(m, reply);
        if (storing) m->stored = m->draft;
        start(m, at);
    } else nak(m, reply);
}

/* returns the refusal, 0 if none; the reply has length 0 if there is none */
LIBRARY int frame_event(Monitor *m, uint32_t at, bool storing, const Frame *f, Frame *reply) {
    int why = refused(m, at, f);
    *reply = (Frame){0};
    if (why) return why;
    m->last = at;
    if (m->phase == IN_SESSION && (uint64_t)at > (uint64_t)m->since + 2000) start(m, m->since + 2000);
    if (!f->extended || f->identifier != m->stored.value[0]) return 0;
    if (m->phase == IN_SESSION) inside(m, at, storing, f, reply); else outside(m, at, f, reply);
    return 0;
}

LIBRARY int reset_event(Monitor *m, uint32_t at) {
    int why = refused(m, at, NULL);
    if (!why) { m->last = at; start(m, at); }
    return why;
}

typedef struct { int why; Monitor monitor; Frame reply; } Outcome;

#ifdef BY_VALUE
__attribute__((noinline)) static Outcome framed(Monitor m, uint32_t at, Frame f) {
    Outcome o;
    o.why = frame_event(&m, at, true, &f, &o.reply);
    o.monitor = m;
    return o;
}
__attribute__((noinline)) static Outcome was_reset(Monitor m, uint32_t at) {
    Outcome o = {.why = reset_event(&m, at)};
    o.monitor = m;
    return o;
}
#define FRAMED(at, f) (o = framed(o.monitor, at, f))
#define RESET(at) (o = was_reset(o.monitor, at))
#else
#define FRAMED(at, f) (o.why = frame_event(&o.monitor, at, true, &(f), &o.reply))
#define RESET(at) (o.why = reset_event(&o.monitor, at), o.reply = (Frame){0})
#endif

static uint64_t counted(uint64_t sum, const Frame *r) {
    return sum % 1099511627776u * 31 + (uint64_t)r->length * 65536 + r->bytes[0] * 256u + r->bytes[4];
}

int main(void) {
    Outcome o = {.monitor = {.rating = 1000, .stored = {{0x0A100101, 0x0A100100, 0x00CA0500, 0, 500, 100}}}};
    for (int i = 0; i < 16; i++) o.monitor.serial[i] = i;
    uint64_t sum = 0;
    uint32_t at = 0;
    for (int turn = 0; turn < 1000000; turn++, at += 4000) {
        const Frame frames[6] = {
            {true, 0x0A100101, 3, {0x14, 0x28, 0xD5}},
            {true, 0x0A100101, 8, {0x14, 0x53, 0x4F, 0x46, 0x50, 0x4D, 0x48, 0x44}},
            {true, 0x0A100102, 3, {0x14, 0x9A, 0x28}},
            {true, 0x0A100101, 5, {0x20, 0, 0, 0, turn % 256}},
            {true, 0x0A100101, 1, {0x20}},
            {true, 0x0A100101, 3, {0x14, 0x9A, 0x28}},
        };
        RESET(at);
        sum = counted(sum, &o.reply);
        for (int i = 0; i < 6; i++) {
            FRAMED(at + 500 * (i + 1), frames[i]);
            sum = counted(sum, &o.reply);
        }
    }
    printf("%llu\n", (unsigned long long)sum);
    return 0;
}
