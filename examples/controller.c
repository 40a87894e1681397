/* A cart's controller: it keeps its state as a record, looks around, reports what is blocked, plans where no route stands, and
   moves. The record came from dispatch: a fresh plot of 3 x 2 cells, the cart on cell 0, the goal cell 2. */
#include <stdio.h>

#include "salenduro.h"

enum { WIDTH = 3, HEIGHT = 2, GOAL = 2 };

static uint8_t record[] = {
    1, 0, 1, WIDTH,                                     /* width */
    2, 0, 1, HEIGHT,                                    /* height */
    3, 0, 2, 0, GOAL,                                   /* goal */
    4, 0, 2, 0, 0,                                      /* the cart's cell */
    5, 0, 1, 0,                                         /* ground: nothing known blocked */
    6, 0, 12, 0, 2, 0, 1, 0, 0, 0, 3, 0, 2, 0, 1,       /* learned: the Manhattan distances */
    7, 0, 6, 0, 0, 0, 0, 0, 0,                          /* links: none */
};

/* What the cart's sensors would see: the true ground, and what it has reported of it. */
static const char *const plot = ".#."
                                "...";
static int known[WIDTH * HEIGHT];

/* An answer of 70,000 and more is a refusal: the record is as it was, and the cart stops. */
static int refused(const char *call, uint32_t answer) {
    if (answer < SALENDURO_REFUSED) return 0;
    printf("%s refused: %u\n", call, (unsigned)(answer - SALENDURO_REFUSED));
    return 1;
}

/* The cell beside another in direction 1 right, 2 down, 3 left, 4 up; -1 off the plot. */
static int beside(int cell, int direction) {
    int column = cell % WIDTH;
    switch (direction) {
    case 1: return column + 1 < WIDTH ? cell + 1 : -1;
    case 2: return cell + WIDTH < WIDTH * HEIGHT ? cell + WIDTH : -1;
    case 3: return column > 0 ? cell - 1 : -1;
    default: return cell - WIDTH >= 0 ? cell - WIDTH : -1;
    }
}

static int look(int cell) {
    for (int direction = 1; direction <= 4; direction++) {
        int next = beside(cell, direction);
        if (next < 0 || plot[next] == '.' || known[next]) continue;
        known[next] = 1;
        if (refused("report", salenduro_report(record, sizeof record, (uint32_t)next))) return 0;
        printf("blocked %d\n", next);
    }
    return 1;
}

int main(void) {
    int cell = 0;
    for (;;) {
        if (!look(cell)) return 1;
        if (cell == GOAL) break;
        uint32_t answer = salenduro_move(record, sizeof record);
        if (answer == SALENDURO_REFUSED + SALENDURO_NO_ROUTE) {
            uint32_t length = salenduro_plan(record, sizeof record);
            if (refused("plan", length)) return 1;
            if (length == SALENDURO_NO_WAY) {
                printf("no way\n");
                return 0;
            }
            printf("plan %u\n", (unsigned)length);
            answer = salenduro_move(record, sizeof record);
        }
        if (refused("move", answer)) return 1;
        cell = (int)answer;
        printf("move %d\n", cell);
    }
    printf("arrived\n");

    /* What breaks a rule is refused, and the record stays: the cart's own cell, a cell off the plot, a record cut short. */
    uint8_t before[sizeof record];
    for (size_t i = 0; i < sizeof record; i++) before[i] = record[i];
    refused("report", salenduro_report(record, sizeof record, GOAL));
    refused("report", salenduro_report(record, sizeof record, UINT32_MAX));
    refused("plan", salenduro_plan(record, sizeof record - 1));
    for (size_t i = 0; i < sizeof record; i++)
        if (record[i] != before[i]) return 1;
    printf("the record stays\n");
    return 0;
}
