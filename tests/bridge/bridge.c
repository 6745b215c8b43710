/*
 * The library behind two pipes: reads calls on standard input, makes them through yukemasop.h, and
 * writes the answers. It lets a host that is no x86-64, where libyukemasop.a can't be linked, call it
 * under an emulator, and it holds the header to the archive.
 *
 * A call is its number and its arguments, an answer its fields and then the lent buffers as they
 * are left. Every number is 8 bytes, lowest first; a buffer is its count and then its elements.
 */
#include "yukemasop.h"

extern long read(int from, void *to, size_t most);
extern long write(int to, const void *from, size_t most);
extern void _exit(int status);

static uint8_t in_bytes[1 << 16], out_bytes[1 << 16];
static size_t in_at, in_end, out_end;

static void flush(void) {
    for (size_t at = 0; at < out_end;) {
        long wrote = write(1, out_bytes + at, out_end - at);
        if (wrote <= 0) _exit(3);
        at += (size_t)wrote;
    }
    out_end = 0;
}

static uint8_t take(void) {
    if (in_at == in_end) {
        flush();
        long got = read(0, in_bytes, sizeof in_bytes);
        if (got <= 0) _exit(got < 0 ? 3 : 0);
        in_at = 0;
        in_end = (size_t)got;
    }
    return in_bytes[in_at++];
}

static void give(uint8_t byte) {
    if (out_end == sizeof out_bytes) flush();
    out_bytes[out_end++] = byte;
}

static uint64_t number(void) {
    uint64_t value = 0;
    for (int k = 0; k < 8; k++) value |= (uint64_t)take() << (8 * k);
    return value;
}

static void say(uint64_t value) {
    for (int k = 0; k < 8; k++) give((uint8_t)(value >> (8 * k)));
}

/* A lent buffer, with guards behind it: what a call writes there is a fault. */
enum { GUARD = 16, ROOM = 1 << 20, BUFFERS = 6 };
static _Alignas(16) uint8_t memory[BUFFERS][ROOM + GUARD], copies[BUFFERS][ROOM];

typedef struct {
    void *at;
    const uint8_t *copy;
    size_t count, bytes;
} buffer;

static buffer lend(int which, size_t width) {
    buffer b = {memory[which], copies[which], number(), 0};
    if (b.count > ROOM / width) _exit(5);
    b.bytes = b.count * width;
    for (size_t k = 0; k < b.bytes; k++) memory[which][k] = copies[which][k] = take();
    for (size_t k = 0; k < GUARD; k++) memory[which][b.bytes + k] = 0xA5;
    return b;
}

static void back(buffer b) {
    const uint8_t *bytes = b.at;
    for (size_t k = 0; k < GUARD; k++) if (bytes[b.bytes + k] != 0xA5) _exit(6);
    for (size_t k = 0; k < b.bytes; k++) give(bytes[k]);
}

/* A buffer that was lent to be read only: the Rust crate doesn't ask for it back, so it is held to that here. */
static void left(buffer b) {
    const uint8_t *bytes = b.at;
    for (size_t k = 0; k < GUARD; k++) if (bytes[b.bytes + k] != 0xA5) _exit(6);
    for (size_t k = 0; k < b.bytes; k++) if (bytes[k] != b.copy[k]) _exit(8);
}

/* What the header says is 0 in a refusal is held to it here, since the Rust crate drops it. */
static void tell(ykm_answer answer) {
    if (answer.number != 0 && answer.value != 0) _exit(7);
    say(answer.number);
    say(answer.place);
    say(answer.value);
}

static void say_counted(ykm_counted counted) {
    say(counted.number);
    say(counted.place);
    say(counted.record.length);
    say(counted.record.gap);
    say(counted.count);
}

static void tell_counted(ykm_counted counted) {
    if (counted.number != 0 && (counted.record.length | counted.record.gap | counted.count) != 0) _exit(7);
    say_counted(counted);
}

/* A refused edit's record is held to be the one that came, since the Rust crate drops that too. */
static void tell_edited(ykm_record came, ykm_counted edited) {
    bool same = edited.record.length == came.length && edited.record.gap == came.gap;
    if (edited.number != 0 && (!same || edited.count != 0)) _exit(7);
    say_counted(edited);
}

static ykm_record record(void) {
    size_t length = number(), gap = number();
    return (ykm_record){length, gap};
}

int main(void) {
    for (;;) switch (number()) {
        case 0: {
            say(ykm_version());
            break;
        }
        case 1: {
            ykm_base base = ykm_read_base((uint8_t)number());
            if (base.number != 0 && base.letter != 0) _exit(7);
            say(base.number);
            say(base.place);
            say(base.letter);
            break;
        }
        case 2: {
            uint8_t a = (uint8_t)number(), b = (uint8_t)number();
            say(ykm_can_pair(a, b));
            break;
        }
        case 3: {
            uint8_t a = (uint8_t)number(), b = (uint8_t)number();
            say(ykm_pair_index(a, b));
            break;
        }
        case 4: {
            buffer text = lend(0, 1), pairs = lend(1, 2);
            tell(ykm_from_dot_bracket(text.at, text.count, pairs.at, pairs.count));
            back(pairs);
            break;
        }
        case 5: {
            buffer pairs = lend(0, 2), text = lend(1, 1);
            tell(ykm_to_dot_bracket(pairs.at, pairs.count, text.at, text.count));
            back(text);
            break;
        }
        case 6: {
            buffer pairs = lend(0, 2), out = lend(1, 2);
            tell(ykm_base_pairs(pairs.at, pairs.count, out.at, out.count));
            back(out);
            break;
        }
        case 7: {
            buffer pairs = lend(0, 2);
            tell(ykm_is_paired(pairs.at, pairs.count, number()));
            break;
        }
        case 8: {
            buffer pairs = lend(0, 2);
            tell(ykm_partner(pairs.at, pairs.count, number()));
            break;
        }
        case 9: {
            buffer pairs = lend(0, 2);
            tell(ykm_num_pairs(pairs.at, pairs.count));
            break;
        }
        case 10: {
            buffer a = lend(0, 2), b = lend(1, 2);
            tell(ykm_base_pair_distance(a.at, a.count, b.at, b.count));
            break;
        }
        case 11: {
            buffer a = lend(0, 2), b = lend(1, 2);
            tell(ykm_mountain_distance(a.at, a.count, b.at, b.count));
            break;
        }
        case 12: {
            buffer seq = lend(0, 1);
            size_t gap = number();
            buffer bases = lend(1, 1), cells = lend(2, 2), pairs = lend(3, 2);
            tell_counted(ykm_nussinov(seq.at, seq.count, gap, bases.at, bases.count,
                                      cells.at, cells.count, pairs.at, pairs.count));
            back(bases);
            back(cells);
            back(pairs);
            break;
        }
        case 13: {
            ykm_record came = record();
            buffer bases = lend(0, 1), cells = lend(1, 2);
            size_t position = number();
            uint8_t byte = (uint8_t)number();
            tell_edited(came, ykm_replace(came, bases.at, bases.count, cells.at, cells.count, position, byte));
            back(bases);
            back(cells);
            break;
        }
        case 14: {
            ykm_record came = record();
            buffer bases = lend(0, 1), cells = lend(1, 2);
            tell_edited(came, ykm_add(came, bases.at, bases.count, cells.at, cells.count, (uint8_t)number()));
            back(bases);
            back(cells);
            break;
        }
        case 15: {
            ykm_record came = record();
            buffer bases = lend(0, 1), cells = lend(1, 2);
            tell_edited(came, ykm_erase(came, bases.at, bases.count, cells.at, cells.count));
            left(bases);
            left(cells);
            break;
        }
        case 16: {
            ykm_record came = record();
            buffer bases = lend(0, 1), cells = lend(1, 2), pairs = lend(2, 2);
            tell(ykm_traceback(came, bases.at, bases.count, cells.at, cells.count, pairs.at, pairs.count));
            left(bases);
            left(cells);
            back(pairs);
            break;
        }
        case 17: {
            buffer seq = lend(0, 1), bases = lend(1, 1);
            buffer paired = lend(2, 4), any = lend(3, 4), arms = lend(4, 4), pairs = lend(5, 2);
            ykm_least least = ykm_zuker_mfe(seq.at, seq.count, bases.at, bases.count, paired.at, paired.count,
                                            any.at, any.count, arms.at, arms.count, pairs.at, pairs.count);
            say(least.number);
            say(least.place);
            say((uint64_t)(int64_t)least.energy);
            left(seq);
            back(bases);
            back(paired);
            back(any);
            back(arms);
            back(pairs);
            break;
        }
        default: _exit(4);
    }
}
