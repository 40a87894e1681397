/*
 * Makes calls on the proved library as the comparison with the second planner asks for them. Standard input holds
 * operations in words and decimal numbers (compare/op.rs); after each call, the answer and every buffer go out, whole.
 */
#include "salenduro.h"

#include "host.h"

/* Each buffer lies between two guards that no call is lent; they go out with it. compare/world.rs has the same numbers. */
enum { GUARD = 8, HEAD_ROOM = 8, CELL_ROOM = 4096 + 32, BYTE_ROOM = 12827 + 32 };
enum { HEAD, GROUND, LEARNED, LINK, MARK, COST, TRAIL, LIST, BYTES, BUFFERS };

static size_t head_store[GUARD + HEAD_ROOM + GUARD];
static uint8_t ground_store[GUARD + CELL_ROOM + GUARD], link_store[GUARD + CELL_ROOM + GUARD];
static uint8_t mark_store[GUARD + CELL_ROOM + GUARD], trail_store[GUARD + CELL_ROOM + GUARD];
static uint16_t learned_store[GUARD + CELL_ROOM + GUARD], cost_store[GUARD + CELL_ROOM + GUARD];
static uint16_t list_store[GUARD + CELL_ROOM + GUARD];
static uint8_t bytes_store[GUARD + BYTE_ROOM + GUARD];

static struct buffer {
    const char *name;
    void *store;
    size_t width; /* bytes of an entry */
    size_t room;  /* entries between the guards */
    size_t lent;  /* the length that calls are told */
} buffers[BUFFERS] = {
    {"head", head_store, sizeof(size_t), 0, 0},
    {"ground", ground_store, 1, 0, 0},
    {"learned", learned_store, 2, 0, 0},
    {"link", link_store, 1, 0, 0},
    {"mark", mark_store, 1, 0, 0},
    {"cost", cost_store, 2, 0, 0},
    {"trail", trail_store, 1, 0, 0},
    {"list", list_store, 2, 0, 0},
    {"bytes", bytes_store, 1, 0, 0},
};

enum { ROOM, LEND, SET, LAYOUT, REPORT, PLAN, MOVE, ASK_LIST, QUESTION, SAVE, LOAD };
enum { RECORD_REPORT = LOAD + 1, RECORD_PLAN, RECORD_MOVE, OPS };

static const struct {
    const char *name;
    int numbers;
} ops[OPS] = {
    {"room", 3}, {"lend", 2}, {"set", 3},
    {"layout", 4}, {"report", 1}, {"plan", 0}, {"move", 0}, {"list", 0}, {"question", 0}, {"save", 0}, {"load", 0},
    {"record-report", 1}, {"record-plan", 0}, {"record-move", 0},
};

/* Output and input go by large pieces. All that is written goes out before the next piece is waited for. */
static uint8_t out[1 << 16];
static size_t out_length;
static char in[1 << 16];
static long in_at, in_length;

static void flush(void) {
    size_t at = 0;
    while (at < out_length) {
        long some = write(1, out + at, out_length - at);
        if (some <= 0) __builtin_trap();
        at += (size_t)some;
    }
    out_length = 0;
}

static void put(const void *bytes, size_t length) {
    const uint8_t *from = bytes;
    while (length > 0) {
        size_t some = sizeof out - out_length;
        if (some > length) some = length;
        memcpy(out + out_length, from, some);
        out_length += some, from += some, length -= some;
        if (out_length == sizeof out) flush();
    }
}

/* The next character, or -1 at the end. */
static int next(void) {
    if (in_at == in_length) {
        flush();
        in_at = 0, in_length = read(0, in, sizeof in);
        if (in_length <= 0) return -1;
    }
    return in[in_at++];
}

/* The next word, as far as it fits. 0 at the end. */
static int word(char *to, int room) {
    int length = 0, c = next();
    while (c == ' ' || c == '\n') c = next();
    while (c > ' ' && length < room - 1) to[length++] = (char)c, c = next();
    to[length] = 0;
    return length;
}

/* Input that the comparison never writes. What was answered so far goes out first. */
static void broken(void) {
    static const char text[] = "harness: broken input\n";
    flush();
    write(2, text, sizeof text - 1);
    __builtin_trap();
}

/* A decimal number, or a buffer's name. */
static size_t number(void) {
    char text[24];
    size_t value = 0;
    word(text, sizeof text);
    for (int i = 0; i < BUFFERS; i++)
        if (strcmp(text, buffers[i].name) == 0) return (size_t)i;
    for (int i = 0; text[i] || i == 0; i++) {
        if (text[i] < '0' || text[i] > '9') broken();
        value = value * 10 + (size_t)(text[i] - '0');
    }
    return value;
}

static void store(const struct buffer *b, size_t at, size_t value) {
    if (b->width == 1) ((uint8_t *)b->store)[at] = (uint8_t)value;
    if (b->width == 2) ((uint16_t *)b->store)[at] = (uint16_t)value;
    if (b->width == sizeof(size_t)) ((size_t *)b->store)[at] = value;
}

/* Gives every buffer its room, fills it and its guards with a pattern, and lends all of it (of the head, five). */
static void make_room(size_t cells, size_t bytes, size_t seed) {
    if (cells > CELL_ROOM || bytes > BYTE_ROOM) broken();
    for (size_t i = 0; i < BUFFERS; i++) {
        struct buffer *b = &buffers[i];
        b->room = i == HEAD ? HEAD_ROOM : i == BYTES ? bytes : cells;
        b->lent = i == HEAD ? SALENDURO_HEAD : b->room;
        for (size_t at = 0; at < GUARD + b->room + GUARD; at++)
            store(b, at, (seed + 16 * i + 1) * (at + 1) * 0x9E3779B97F4A7C15u >> 20);
    }
}

/* Where the lent entries begin. A buffer of none is lent as a null pointer, which no call may follow. */
static void *start(int i) {
    return buffers[i].lent ? (uint8_t *)buffers[i].store + GUARD * buffers[i].width : 0;
}

#define LENT(i) start(i), buffers[i].lent
#define MAP LENT(GROUND), LENT(LEARNED), LENT(LINK)

static uint32_t call(int op, const size_t *n) {
    switch (op) {
    case LAYOUT: return salenduro_buffers_layout(n[0], n[1], n[2], n[3], LENT(HEAD), MAP);
    case REPORT: return salenduro_buffers_report(LENT(HEAD), MAP, n[0]);
    case PLAN: return salenduro_buffers_plan(LENT(HEAD), MAP, LENT(MARK), LENT(COST), LENT(TRAIL));
    case MOVE: return salenduro_buffers_move(LENT(HEAD), MAP);
    case ASK_LIST: return salenduro_buffers_list(LENT(HEAD), MAP, LENT(LIST));
    case QUESTION: return salenduro_buffers_question(LENT(HEAD), MAP, LENT(LIST));
    case SAVE: return salenduro_buffers_save(LENT(HEAD), MAP, LENT(BYTES));
    case LOAD: return salenduro_buffers_load(LENT(BYTES), LENT(HEAD), MAP);
    case RECORD_REPORT: return salenduro_report(LENT(BYTES), (uint32_t)n[0]);
    case RECORD_PLAN: return salenduro_plan(LENT(BYTES));
    default: return salenduro_move(LENT(BYTES));
    }
}

static void put_all(uint32_t answer) {
    put(&answer, sizeof answer);
    for (int i = 0; i < BUFFERS; i++)
        put(buffers[i].store, (GUARD + buffers[i].room + GUARD) * buffers[i].width);
}

int main(void) {
    char name[16];
    size_t n[4];
    while (word(name, sizeof name)) {
        int op = 0;
        while (op < OPS && strcmp(name, ops[op].name) != 0) op++;
        if (op == OPS) broken();
        for (int i = 0; i < ops[op].numbers; i++) n[i] = number();
        if (op == ROOM) {
            make_room(n[0], n[1], n[2]);
        } else if (op == LEND) {
            if (n[0] >= BUFFERS || n[1] > buffers[n[0]].room) broken();
            buffers[n[0]].lent = n[1];
        } else if (op == SET) {
            if (n[0] >= BUFFERS || n[1] >= buffers[n[0]].room) broken();
            store(&buffers[n[0]], GUARD + n[1], n[2]);
        } else {
            put_all(call(op, n));
        }
    }
    flush();
    return 0;
}
