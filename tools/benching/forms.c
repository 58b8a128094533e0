/* The machine's model in plain C: a gang of LANES lanes, whose words are those of a machine that keeps the old word of each change, so that
   steps can be taken back. `forms FORM FILLING STEPS TIMES HISTORY` runs the program of a form for so many steps, so that its record is full,
   then so many times STEPS on, and as often STEPS back and on again. It writes the nanoseconds of a step forward and of one back, each by the
   least of these times, and a sum that hangs on all steps. It is compiled with -DLANES=4, 8 or 16. Nothing of it is checked, and nothing is
   shown. */
#include <stdint.h>
#include <stdio.h>
#include <stdlib.h>
#include <string.h>
#include <time.h>

enum { VARIABLES = 8, COUNTERS = 9, LEVEL = LANES + 1 + COUNTERS + LANES, RESULT = 5, LEVELS = RESULT + LANES };
enum { HEAD = LEVELS + 2 * LEVEL, FRAME = HEAD + VARIABLES * LANES, FRAMES = 64, ELEMENTS = 4096, ARRAY = 1 + FRAMES * FRAME };

/* The words of a frame before its result: the function, the lanes that called it, those that have returned, and the level. */
enum { FUNCTION = 0, CALLERS = 1, RETURNED = 2, DEPTH = 4 };

/* The counters of a level: a domain's bounds, the rounds that are left, and how many rows and columns of rounds there are. */
enum { LOW = 0, HIGH = 1, LOW_INNER = 2, HIGH_INNER = 3, LEFT = 6, ROWS = 7, COLUMNS = 8 };

typedef enum { VALUE, CONSTANT, INDEX, LESS, ADD, SUBTRACT, MULTIPLY, AND, XOR, GATHER, SUM, ROTATE, SHUFFLE, SCAN, LEAST, COUNT, ANY, END } Operation;
typedef struct {
    Operation operation;
    uint64_t operand;
} Instruction;

typedef enum {
    ASSIGN, DECLARE, ADD_TO, XOR_TO, SUBTRACT_FROM, BRANCH, SCATTER, SCATTER_SUM, BEGIN, BEGIN_UNIQUE, BEGIN_TILED, ROUND, ROUND_UNIQUE, ROUND_TILED,
    SWITCH, CALL, RETURN, GO
} Kind;
typedef struct {
    Kind kind;
    int variable;
    const Instruction *code;
    int next, otherwise;
    const Instruction *index;
    int cases[3], low, high, low_inner, high_inner, end, callee;
} Step;
typedef struct {
    const Step *steps;
    int count;
} Function;

typedef struct {
    uint32_t index;
    uint64_t old;
} Change;

/* Where the next step stands: its frame's words, its level, its number, the lanes that do it, and the function. */
typedef struct {
    uint32_t frame, level, number, lanes;
    const Function *function;
} Place;

static uint64_t words[1 << 20];
static Change *changes;
static uint32_t *marks;
static uint64_t changes_most, changes_end, marks_most, marks_end, marks_kept;
static uint64_t stack[64][LANES];
static const Function *functions;
static int fault;

#define EACH_LANE for (int lane = 0; lane < LANES; lane++)
#define EACH_ACTIVE(lanes) EACH_LANE if ((lanes) >> lane & 1)

static inline void set(uint32_t index, uint64_t word) {
    changes[changes_end] = (Change){index, words[index]};
    if (++changes_end == changes_most) changes_end = 0;
    words[index] = word;
    marks[marks_end]++;
}

static inline void begin_step(void) {
    marks_end++;
    if (marks_end == marks_most) marks_end = 0;
    marks[marks_end] = 0;
    if (marks_kept < marks_most) marks_kept++;
}

static inline uint64_t of_32_bits(uint64_t word) { return (uint64_t)(int64_t)(int32_t)word; }

static inline uint32_t frame_at(uint32_t number) { return 1 + number * FRAME; }

static inline uint32_t level_at(uint32_t frame, uint32_t level) { return frame + LEVELS + level * LEVEL; }

static inline uint32_t counters_at(uint32_t frame, uint32_t level) { return level_at(frame, level) + LANES + 1; }

static inline uint32_t variable_at(uint32_t frame, uint64_t variable) { return frame + HEAD + variable * LANES; }

/* Works out an expression, whose values are at the bottom of the stack then. */
static void work_out(const Instruction *code, uint32_t frame, uint32_t lanes) {
    uint64_t moved[LANES];
    for (int top = 0;; code++) {
        uint64_t *values = stack[top > 0 ? top - 1 : 0], *right = stack[top];
        switch (code->operation) {
        case VALUE: memcpy(stack[top++], &words[variable_at(frame, code->operand)], sizeof moved); break;
        case CONSTANT: EACH_LANE stack[top][lane] = code->operand; top++; break;
        case INDEX: EACH_LANE stack[top][lane] = lane; top++; break;
        case LESS: values = stack[--top - 1], right = stack[top]; EACH_LANE values[lane] = (int64_t)values[lane] < (int64_t)right[lane]; break;
        case ADD: values = stack[--top - 1], right = stack[top]; EACH_LANE values[lane] = of_32_bits(values[lane] + right[lane]); break;
        case SUBTRACT: values = stack[--top - 1], right = stack[top]; EACH_LANE values[lane] = of_32_bits(values[lane] - right[lane]); break;
        case MULTIPLY: values = stack[--top - 1], right = stack[top]; EACH_LANE values[lane] = of_32_bits(values[lane] * right[lane]); break;
        case AND: values = stack[--top - 1], right = stack[top]; EACH_LANE values[lane] &= right[lane]; break;
        case XOR: values = stack[--top - 1], right = stack[top]; EACH_LANE values[lane] ^= right[lane]; break;
        case LEAST:
            values = stack[--top - 1], right = stack[top];
            EACH_LANE values[lane] = (int64_t)values[lane] < (int64_t)right[lane] ? values[lane] : right[lane];
            break;
        case COUNT: EACH_LANE values[lane] = __builtin_popcount((uint32_t)values[lane]); break;
        case GATHER:
            memset(moved, 0, sizeof moved);
            EACH_ACTIVE(lanes) {
                if (values[lane] >= ELEMENTS) fault = 1;
                else moved[lane] = words[ARRAY + values[lane]];
            }
            memcpy(values, moved, sizeof moved);
            break;
        case SUM: {
            uint64_t sum = 0;
            EACH_ACTIVE(lanes) sum += values[lane];
            EACH_LANE values[lane] = sum;
            break;
        }
        case ROTATE:
            values = stack[--top - 1], right = stack[top];
            EACH_LANE moved[lane] = values[(lane + (int)right[0]) & (LANES - 1)];
            memcpy(values, moved, sizeof moved);
            break;
        case SHUFFLE:
            values = stack[--top - 1], right = stack[top];
            EACH_LANE {
                if (right[lane] >= LANES) fault = 1;
                moved[lane] = values[right[lane] & (LANES - 1)];
            }
            memcpy(values, moved, sizeof moved);
            break;
        case SCAN: {
            uint64_t sum = 0;
            memset(moved, 0, sizeof moved);
            EACH_ACTIVE(lanes) {
                moved[lane] = of_32_bits(sum);
                sum += values[lane];
            }
            memcpy(values, moved, sizeof moved);
            break;
        }
        case ANY: {
            uint64_t any = 0;
            EACH_LANE any |= (lanes >> lane & 1) && values[lane];
            EACH_LANE values[lane] = any;
            break;
        }
        case END: return;
        }
    }
}

/* The least number of the lanes of a level, and the lanes that have it. */
static inline uint32_t least(uint32_t level, uint64_t end, uint32_t *lanes) {
    const uint64_t *numbers = &words[level];
    uint64_t found = end;
    uint32_t having = 0;
    EACH_LANE if (numbers[lane] < found) found = numbers[lane];
    EACH_LANE having |= (uint32_t)(numbers[lane] == found) << lane;
    *lanes = having;
    return found;
}

static int next(Place *at) {
    if (!words[0]) return 0;
    at->frame = frame_at(words[0] - 1);
    at->function = &functions[words[at->frame + FUNCTION]];
    uint32_t level = words[at->frame + DEPTH], lanes;
    while (level > 0) {
        uint64_t end = words[level_at(at->frame, level) + LANES];
        if (least(level_at(at->frame, level), end, &lanes) != end) break;
        if ((int64_t)words[counters_at(at->frame, level) + LEFT] > 0) break;
        level--;
    }
    at->level = level;
    uint64_t end = level ? words[level_at(at->frame, level) + LANES] : (uint64_t)at->function->count;
    at->number = least(level_at(at->frame, level), end, &at->lanes);
    return 1;
}

static inline void send(const Place *at, uint64_t number) {
    uint32_t level = level_at(at->frame, at->level);
    EACH_ACTIVE(at->lanes) set(level + lane, number);
}

/* A function is left: its result goes to the variable of the step that called it. */
static void leave(const Place *at) {
    uint64_t depth = words[0];
    begin_step();
    set(0, depth - 1);
    if (depth == 1) return;
    Place caller = {.frame = frame_at(depth - 2)};
    caller.function = &functions[words[caller.frame + FUNCTION]];
    caller.level = words[caller.frame + DEPTH];
    uint32_t level = level_at(caller.frame, caller.level);
    caller.number = least(level, caller.level ? words[level + LANES] : (uint64_t)caller.function->count, &caller.lanes);
    caller.lanes = words[at->frame + CALLERS];
    const Step *step = &caller.function->steps[caller.number];
    uint32_t variable = variable_at(caller.frame, step->variable);
    EACH_ACTIVE(caller.lanes) set(variable + lane, words[at->frame + RESULT + lane]);
    send(&caller, step->next);
}

static void call(const Place *at, const Step *step) {
    uint64_t depth = words[0], given[LANES];
    memcpy(given, stack[0], sizeof given);
    uint32_t frame = frame_at(depth);
    begin_step();
    set(0, depth + 1);
    set(frame + FUNCTION, step->callee);
    set(frame + CALLERS, at->lanes);
    set(frame + RETURNED, 0);
    EACH_LANE set(frame + RESULT + lane, 0);
    set(frame + DEPTH, 0);
    EACH_LANE set(level_at(frame, 0) + lane, at->lanes >> lane & 1 ? 0 : functions[step->callee].count);
    EACH_LANE set(variable_at(frame, 0) + lane, at->lanes >> lane & 1 ? given[lane] : 0);
    set(variable_at(frame, 1), ARRAY);
    set(variable_at(frame, 1) + 1, ELEMENTS);
}

static int scatter(const Place *at, const Step *step) {
    uint64_t index[LANES], new[LANES];
    work_out(step->index, at->frame, at->lanes);
    memcpy(index, stack[0], sizeof index);
    work_out(step->code, at->frame, at->lanes);
    EACH_ACTIVE(at->lanes) {
        if (index[lane] >= ELEMENTS) {
            fault = 1;
            return 0;
        }
        new[lane] = step->kind == SCATTER ? stack[0][lane] : of_32_bits(words[ARRAY + index[lane]] + stack[0][lane]);
    }
    begin_step();
    EACH_ACTIVE(at->lanes) set(ARRAY + index[lane], new[lane]);
    send(at, step->next);
    return 1;
}

enum { TILE_ROWS = LANES == 16 ? 4 : 2, TILE_COLUMNS = LANES / TILE_ROWS };

static void begin_domain(const Place *at, const Step *step) {
    uint64_t values[LANES];
    if (step->kind == BEGIN_UNIQUE) {
        work_out(step->code, at->frame, at->lanes);
        memcpy(values, stack[0], sizeof values);
    }
    begin_step();
    uint32_t level = level_at(at->frame, at->level + 1), counters = level + LANES + 1;
    send(at, step->next);
    set(at->frame + DEPTH, at->level + 1);
    EACH_LANE set(level + lane, step->end);
    set(level + LANES, step->end);
    if (step->kind == BEGIN_UNIQUE) {
        set(counters, at->lanes);
        set(counters + LEFT, 1);
        EACH_LANE set(counters + COUNTERS + lane, values[lane]);
        return;
    }
    set(counters + LOW, step->low);
    set(counters + HIGH, step->high);
    if (step->kind == BEGIN) {
        set(counters + LEFT, (step->high - step->low + LANES - 1) / LANES);
        return;
    }
    int rows = (step->high - step->low + TILE_ROWS - 1) / TILE_ROWS, columns = (step->high_inner - step->low_inner + TILE_COLUMNS - 1) / TILE_COLUMNS;
    set(counters + LOW_INNER, step->low_inner);
    set(counters + HIGH_INNER, step->high_inner);
    set(counters + LEFT, (uint64_t)rows * columns);
    set(counters + ROWS, rows);
    set(counters + COLUMNS, columns);
}

/* The next round of a domain of one dimension. */
static void begin_round(Place *at, const Step *step) {
    uint32_t counters = counters_at(at->frame, at->level);
    int64_t left = words[counters + LEFT], low = words[counters + LOW], high = words[counters + HIGH];
    int64_t first = low + ((high - low + LANES - 1) / LANES - left) * LANES;
    uint64_t indices[LANES];
    at->lanes = 0;
    EACH_LANE {
        int is_in = first + lane < high;
        at->lanes |= (uint32_t)is_in << lane;
        indices[lane] = is_in ? first + lane : 0;
    }
    begin_step();
    set(counters + LEFT, left - 1);
    set(counters + ROWS, 0);
    set(counters + COLUMNS, 0);
    send(at, step->next);
    uint32_t variable = variable_at(at->frame, step->variable);
    EACH_LANE set(variable + lane, indices[lane]);
}

static void begin_tile(Place *at, const Step *step) {
    uint32_t counters = counters_at(at->frame, at->level);
    int64_t left = words[counters + LEFT], rows = words[counters + ROWS], columns = words[counters + COLUMNS], done = rows * columns - left;
    int64_t row = words[counters + LOW] + done / columns * TILE_ROWS, column = words[counters + LOW_INNER] + done % columns * TILE_COLUMNS;
    uint64_t indices[2][LANES];
    at->lanes = 0;
    EACH_LANE {
        int64_t outer = row + lane / TILE_COLUMNS, inner = column + lane % TILE_COLUMNS;
        int is_in = outer < (int64_t)words[counters + HIGH] && inner < (int64_t)words[counters + HIGH_INNER];
        at->lanes |= (uint32_t)is_in << lane;
        indices[0][lane] = is_in ? outer : 0;
        indices[1][lane] = is_in ? inner : 0;
    }
    begin_step();
    set(counters + LEFT, left - 1);
    set(counters + ROWS, rows);
    set(counters + COLUMNS, columns);
    send(at, step->next);
    uint32_t variable = variable_at(at->frame, step->variable);
    EACH_LANE set(variable + lane, indices[0][lane]);
    EACH_LANE set(variable + LANES + lane, indices[1][lane]);
}

static void begin_value(Place *at, const Step *step) {
    uint32_t counters = counters_at(at->frame, at->level), left = words[counters];
    uint64_t value = words[counters + COUNTERS + __builtin_ctz(left)];
    at->lanes = 0;
    EACH_ACTIVE(left) if (words[counters + COUNTERS + lane] == value) at->lanes |= 1u << lane;
    begin_step();
    set(counters, left & ~at->lanes);
    set(counters + LEFT, (left & ~at->lanes) != 0);
    send(at, step->next);
    set(variable_at(at->frame, step->variable), value);
}

static void assign(const Place *at, const Step *step) {
    uint32_t variable = variable_at(at->frame, step->variable);
    uint64_t new[LANES], *given = stack[0];
    work_out(step->code, at->frame, at->lanes);
    begin_step();
    EACH_LANE {
        uint64_t old = words[variable + lane];
        new[lane] = step->kind == ADD_TO ? of_32_bits(old + given[lane])
            : step->kind == XOR_TO ? of_32_bits(old ^ given[lane])
            : step->kind == SUBTRACT_FROM ? of_32_bits(old - given[lane]) : given[lane];
    }
    if (step->kind == DECLARE) EACH_LANE set(variable + lane, at->lanes >> lane & 1 ? new[lane] : 0);
    else EACH_ACTIVE(at->lanes) set(variable + lane, new[lane]);
    send(at, step->next);
}

static int case_of(const Step *step, uint64_t value) { return value < 3 ? step->cases[value] : step->otherwise; }

static int step_on(void) {
    Place at;
    if (!next(&at)) return 0;
    if (at.number == (uint32_t)at.function->count) {
        leave(&at);
        return 1;
    }
    const Step *step = &at.function->steps[at.number];
    uint32_t level = level_at(at.frame, at.level);
    switch (step->kind) {
    case BRANCH:
        work_out(step->code, at.frame, at.lanes);
        begin_step();
        EACH_ACTIVE(at.lanes) set(level + lane, stack[0][lane] ? step->next : step->otherwise);
        return 1;
    case SWITCH:
        work_out(step->code, at.frame, at.lanes);
        begin_step();
        EACH_ACTIVE(at.lanes) set(level + lane, case_of(step, stack[0][lane]));
        return 1;
    case GO: begin_step(); send(&at, step->next); return 1;
    case SCATTER: case SCATTER_SUM: return scatter(&at, step);
    case BEGIN: case BEGIN_TILED: case BEGIN_UNIQUE: begin_domain(&at, step); return 1;
    case ROUND: begin_round(&at, step); return 1;
    case ROUND_TILED: begin_tile(&at, step); return 1;
    case ROUND_UNIQUE: begin_value(&at, step); return 1;
    case CALL:
        if (words[0] >= FRAMES) {
            fault = 1;
            return 0;
        }
        work_out(step->code, at.frame, at.lanes);
        call(&at, step);
        return 1;
    case RETURN:
        work_out(step->code, at.frame, at.lanes);
        begin_step();
        EACH_ACTIVE(at.lanes) set(at.frame + RESULT + lane, stack[0][lane]);
        set(at.frame + RETURNED, words[at.frame + RETURNED] | at.lanes);
        send(&at, at.function->count);
        return 1;
    default: assign(&at, step); return 1;
    }
}

static int step_back(void) {
    if (!marks_kept) return 0;
    for (uint32_t left = marks[marks_end]; left; left--) {
        changes_end = changes_end ? changes_end - 1 : changes_most - 1;
        words[changes[changes_end].index] = changes[changes_end].old;
    }
    marks_end = marks_end ? marks_end - 1 : marks_most - 1;
    marks_kept--;
    return 1;
}

/* ---- the programs of the forms */

static Instruction arena[4096];
static int arena_end;

static const Instruction *kept(const Instruction *code, int count) {
    memcpy(arena + arena_end, code, count * sizeof *code);
    arena_end += count;
    return arena + arena_end - count;
}

#define CODE(...) kept((Instruction[]){__VA_ARGS__, {END, 0}}, sizeof((Instruction[]){__VA_ARGS__, {END, 0}}) / sizeof(Instruction))
#define INTO(variable_, code_, next_) .variable = variable_, .code = code_, .next = next_
#define PLACE_OF_ELEMENT {VALUE, 0}, {CONSTANT, 5}, {MULTIPLY, 0}, {INDEX, 0}, {CONSTANT, 3}, {MULTIPLY, 0}, {ADD, 0}, {CONSTANT, ELEMENTS - 1}, {AND, 0}

static Step steps[20], callee[2];
static const Instruction *zero, *one, *counter, *test;

/* `int i = 0; int x = 0; while (i < 100000000) { STEP; i += 1; }` */
static int loop_of(Step step) {
    steps[0] = (Step){DECLARE, INTO(0, zero, 1)};
    steps[1] = (Step){DECLARE, INTO(1, zero, 2)};
    steps[2] = (Step){BRANCH, INTO(0, test, 3), .otherwise = 5};
    steps[3] = step;
    steps[4] = (Step){ADD_TO, INTO(0, one, 2)};
    return 5;
}

static int sums(void) {
    loop_of((Step){ADD_TO, INTO(1, counter, 4)});
    steps[2].otherwise = 8;
    steps[4] = (Step){XOR_TO, INTO(1, CODE({CONSTANT, 5}), 5)};
    steps[5] = (Step){ADD_TO, INTO(1, CODE({CONSTANT, 7}), 6)};
    steps[6] = (Step){SUBTRACT_FROM, INTO(1, CODE({CONSTANT, 3}), 7)};
    steps[7] = (Step){ADD_TO, INTO(0, one, 2)};
    return 8;
}

static int switch_on(const Instruction *code) {
    loop_of((Step){SWITCH, .code = code, .cases = {4, 6, 8}, .otherwise = 10});
    steps[2].otherwise = 12;
    steps[4] = (Step){ADD_TO, INTO(1, one, 5)};
    steps[6] = (Step){ADD_TO, INTO(1, CODE({CONSTANT, 2}), 7)};
    steps[8] = (Step){XOR_TO, INTO(1, CODE({CONSTANT, 5}), 9)};
    for (int number = 5; number < 10; number += 2) steps[number] = (Step){GO, .next = 11};
    steps[10] = (Step){SUBTRACT_FROM, INTO(1, one, 11)};
    steps[11] = (Step){ADD_TO, INTO(0, one, 2)};
    return 12;
}

static int domain(Step begin, Kind round, const Instruction *code) {
    steps[0] = (Step){DECLARE, INTO(0, zero, 1)};
    steps[1] = begin;
    steps[2] = (Step){ADD_TO, INTO(0, code, 3)};
    steps[3] = (Step){round, INTO(2, 0, 2)};
    return 4;
}

static int unique(void) {
    loop_of((Step){BEGIN_UNIQUE, INTO(0, CODE({INDEX, 0}, {CONSTANT, 3}, {AND, 0}), 6), .end = 5});
    steps[2].otherwise = 7;
    steps[4] = (Step){ADD_TO, INTO(1, CODE({VALUE, 2}), 5)};
    steps[5] = (Step){ROUND_UNIQUE, INTO(2, 0, 4)};
    steps[6] = (Step){ADD_TO, INTO(0, one, 2)};
    return 7;
}

static int called(void) {
    callee[0] = (Step){DECLARE, INTO(2, CODE({VALUE, 0}, {CONSTANT, 1}, {ADD, 0}), 1)};
    callee[1] = (Step){RETURN, INTO(0, CODE({VALUE, 2}), 2)};
    return loop_of((Step){CALL, INTO(1, counter, 4), .callee = 1});
}

static const Instruction *expression(void) {
    return CODE({VALUE, 0}, {CONSTANT, 5}, {MULTIPLY, 0}, {INDEX, 0}, {CONSTANT, 3}, {MULTIPLY, 0}, {ADD, 0}, {VALUE, 1}, {XOR, 0}, {CONSTANT, 7},
                {ADD, 0}, {VALUE, 0}, {SUBTRACT, 0}, {CONSTANT, 1023}, {AND, 0});
}

/* Lays the program of a form, and returns how many steps it has; 0 where there is no such form. */
static int laid(const char *form) {
#define IS(name) if (!strcmp(form, name))
    IS("loop") return sums();
    IS("expression") return loop_of((Step){ASSIGN, INTO(1, expression(), 4)});
    IS("gather") return loop_of((Step){ADD_TO, INTO(1, CODE(PLACE_OF_ELEMENT, {GATHER, 0}), 4)});
    IS("scatter") return loop_of((Step){SCATTER, INTO(0, counter, 4), .index = CODE(PLACE_OF_ELEMENT)});
    IS("element") return loop_of((Step){SCATTER_SUM, INTO(0, counter, 4), .index = CODE(PLACE_OF_ELEMENT)});
    IS("reduce_add") return loop_of((Step){ADD_TO, INTO(1, CODE({VALUE, 0}, {SUM, 0}), 4)});
    IS("rotate") return loop_of((Step){ASSIGN, INTO(1, CODE({VALUE, 0}, {CONSTANT, 1}, {ROTATE, 0}), 4)});
    IS("shuffle") return loop_of((Step){ASSIGN, INTO(1, CODE({VALUE, 0}, {CONSTANT, LANES - 1}, {INDEX, 0}, {SUBTRACT, 0}, {SHUFFLE, 0}), 4)});
    IS("exclusive_scan_add") return loop_of((Step){ASSIGN, INTO(1, CODE({VALUE, 0}, {SCAN, 0}), 4)});
    IS("min") return loop_of((Step){ASSIGN, INTO(1, CODE({VALUE, 0}, {INDEX, 0}, {LEAST, 0}), 4)});
    IS("popcnt") return loop_of((Step){ASSIGN, INTO(1, CODE({VALUE, 0}, {COUNT, 0}), 4)});
    IS("any") return loop_of((Step){ASSIGN, INTO(1, CODE({VALUE, 0}, {CONSTANT, 5}, {LESS, 0}, {ANY, 0}), 4)});
    IS("switch") return switch_on(CODE({VALUE, 0}, {CONSTANT, 3}, {AND, 0}));
    IS("switch apart") return switch_on(CODE({VALUE, 0}, {INDEX, 0}, {ADD, 0}, {CONSTANT, 3}, {AND, 0}));
    IS("foreach") return domain((Step){BEGIN, .next = 4, .high = 1000000000, .end = 3}, ROUND, CODE({VALUE, 2}));
    IS("foreach_tiled") return domain((Step){BEGIN_TILED, .next = 4, .high = 30000, .high_inner = 30000, .end = 3}, ROUND_TILED, CODE({VALUE, 2}, {VALUE, 3}, {ADD, 0}));
    IS("foreach_unique") return unique();
    IS("call") return called();
    return 0;
}

static double now(void) {
    struct timespec time;
    clock_gettime(CLOCK_PROCESS_CPUTIME_ID, &time);
    return time.tv_sec + time.tv_nsec * 1e-9;
}

static uint32_t sum;
static int is_short;

/* The seconds of so many steps, at each of which the place is looked at. */
static double seconds(int (*step)(void), long most) {
    double start = now();
    long count = 0;
    while (count < most && step()) {
        Place at;
        count++;
        sum += next(&at) ? at.number : 0;
    }
    if (count < most) is_short = 1;
    return now() - start;
}

static double lesser(double one, double other) { return one < other ? one : other; }

int main(int count, char **given) {
    if (count != 6) return 2;
    long filling = atol(given[2]), most = atol(given[3]), times = atol(given[4]);
    marks_most = strtoull(given[5], 0, 10);
    changes_most = marks_most * (9 * LANES + 16);
    changes = malloc(changes_most * sizeof *changes);
    marks = calloc(marks_most, sizeof *marks);
    if (!changes || !marks) return 3;
    memset(changes, 1, changes_most * sizeof *changes);
    zero = CODE({CONSTANT, 0}), one = CODE({CONSTANT, 1}), counter = CODE({VALUE, 0}), test = CODE({VALUE, 0}, {CONSTANT, 100000000}, {LESS, 0});
    Function all[2] = {{steps, laid(given[1])}, {callee, 2}};
    if (!all[0].count) return 2;
    functions = all;
    words[0] = 1;
    words[frame_at(0) + CALLERS] = (1u << LANES) - 1;
    seconds(step_on, filling);
    double forward = 1e9, back = 1e9;
    for (long time = 0; time < times; time++) forward = lesser(forward, seconds(step_on, most));
    for (long time = 0; time < times; time++) {
        back = lesser(back, seconds(step_back, most));
        seconds(step_on, most);
    }
    printf("%.2f %.2f %u\n", forward / most * 1e9, back / most * 1e9, sum);
    return fault || is_short ? 4 : 0;
}
