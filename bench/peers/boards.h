// Four boards with the fans on them by turns, read with version 3 alone. bench/cases.py has the same.
enum { BOARDS = 4 };
#define TURN 1, 2, 3, 4
#define TURNS TURN, TURN, TURN, TURN

static const uint8_t boards[MOST] = {TURNS, TURNS, TURNS, TURNS};
static const uint32_t switchboards[BOARDS] = {999999999, 999500000, 990000001, 900000000};
