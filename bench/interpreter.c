/*
 * A plain interpreter of the stack machine, for the reckoning of counts.
 *
 * It reads the same scripts as `cma` on standard input and prints the same
 * lines, so that the two can be compared byte for byte and then timed.
 * A malformed line ends the program with status 1.
 */

#define _POSIX_C_SOURCE 200809L

#include <inttypes.h>
#include <stdbool.h>
#include <stdint.h>
#include <stdio.h>
#include <stdlib.h>
#include <string.h>
#include <sys/types.h>

/* The eight high bits of a word are one of these numbers. */
enum instruction {
    HALT, LOADC, LOADRC, LOAD, STORE, POP,
    ADD, SUB, MUL, DIV, MOD,
    EQ, NEQ, LE, LEQ, GR, GEQ,
    NEG, NOT, JUMP, JUMPZ,
    MARK, CALL, ENTER, ALLOC, RETURN, CHK,
    INSTRUCTIONS
};

static const char *const names[INSTRUCTIONS] = {
    "halt", "loadc", "loadrc", "load", "store", "pop",
    "add", "sub", "mul", "div", "mod",
    "eq", "neq", "le", "leq", "gr", "geq",
    "neg", "not", "jump", "jumpz",
    "mark", "call", "enter", "alloc", "return", "chk",
};

/* Why a run stops: up to 44 the machine's reasons, from 45 the reckoning's. */
enum stop {
    NO_STOP = 0,
    INVALID = 40,      /* what no well-formed code does; asked before any other stop */
    BAD_INDEX = 41,
    NO_BUDGET = 42,
    TOO_MANY_ACTIVE = 43,
    NO_ROOM = 44,
    OVERFLOW = 45,
    ZERO_DIVISOR = 46
};

enum {
    MOST_ACTIVE = 24,
    LAST_PLACE = 16383 /* largest constant, address or saved register in a cell */
};

struct registers {
    int32_t pc, sp, fp, ep;
    uint32_t active, budget;
};

struct machine {
    int32_t *cells;
    int64_t length;        /* of the store, at most INT32_MAX */
    uint32_t *code;
    uint32_t *places;      /* beside the code */
    int64_t code_length;   /* at most INT32_MAX */
    struct registers registers;
};

/* ---- The machine ---- */

/* Goes on if the condition holds, else leaves the loop with this stop. */
#define REQUIRE(condition, number)                                             \
    do {                                                                       \
        if (!(condition)) {                                                    \
            stop = (number);                                                   \
            goto stopped;                                                      \
        }                                                                      \
    } while (0)

/* Is it an address of the store? Such an address also fits 32 bits. */
#define INSIDE(address) ((uint64_t)(address) < (uint64_t)length)

/* May it be kept in a cell and read back, as a constant or an address? */
#define IS_PLACE(number) ((uint64_t)(int64_t)(number) <= LAST_PLACE)

#define FITS_REGISTER(number) ((number) == (int32_t)(number))

/* Puts left OP right, two int32 cells, in place of both. */
#define ARITHMETIC(checked_operation)                                          \
    do {                                                                       \
        int32_t result;                                                        \
        REQUIRE(sp >= 1 && sp < length, INVALID);                              \
        REQUIRE(!checked_operation(cells[sp - 1], cells[sp], &result),         \
                OVERFLOW);                                                     \
        cells[--sp] = result;                                                  \
    } while (0)

#define COMPARISON(operator)                                                   \
    do {                                                                       \
        REQUIRE(sp >= 1 && sp < length, INVALID);                              \
        cells[sp - 1] = cells[sp - 1] operator cells[sp];                      \
        sp--;                                                                  \
    } while (0)

/* A jump that does not go forward costs one unit. */
#define JUMP_TO(target)                                                        \
    do {                                                                       \
        if ((target) <= pc) {                                                  \
            REQUIRE(budget > 0, NO_BUDGET);                                    \
            budget--;                                                          \
        }                                                                      \
        next = (target);                                                       \
    } while (0)

/*
 * Runs from the machine's registers to a halt (NO_STOP) or a stop.
 * An instruction asks all its conditions before it changes anything, so that
 * one that stops has no effect. The registers are 32 bits wide; they are held
 * in 64 bits here, so that no sum of a register and an operand overflows.
 */
static enum stop run(struct machine *machine)
{
    int32_t *const cells = machine->cells;
    const int64_t length = machine->length;
    const uint32_t *const code = machine->code;
    const int64_t code_length = machine->code_length;

    int64_t pc = machine->registers.pc;
    int64_t sp = machine->registers.sp;
    int64_t fp = machine->registers.fp;
    int64_t ep = machine->registers.ep;
    uint32_t active = machine->registers.active;
    uint32_t budget = machine->registers.budget;
    enum stop stop = NO_STOP;

    for (;;) {
        REQUIRE((uint64_t)pc < (uint64_t)code_length, INVALID);
        const uint32_t word = code[pc];
        const int64_t operand = (int32_t)(word << 8) >> 8;
        int64_t next = pc + 1; /* at most code_length, so within 32 bits */

        switch (word >> 24) {
        case HALT:
            goto stopped;

        case LOADC:
            REQUIRE(IS_PLACE(operand) && INSIDE(sp + 1), INVALID);
            cells[++sp] = (int32_t)operand;
            break;

        case LOADRC:
            REQUIRE(IS_PLACE(fp + operand) && INSIDE(sp + 1), INVALID);
            cells[++sp] = (int32_t)(fp + operand);
            break;

        case LOAD: {
            REQUIRE(INSIDE(sp), INVALID);
            const int64_t address = cells[sp];
            REQUIRE(IS_PLACE(address) && INSIDE(address), INVALID);
            cells[sp] = cells[address];
            break;
        }

        case STORE: {
            REQUIRE(sp >= 1 && sp < length, INVALID);
            const int64_t address = cells[sp];
            REQUIRE(IS_PLACE(address) && INSIDE(address), INVALID);
            cells[address] = cells[sp - 1];
            sp--;
            break;
        }

        case POP:
            REQUIRE(sp > INT32_MIN, INVALID);
            sp--;
            break;

        case ADD:
            ARITHMETIC(__builtin_add_overflow);
            break;

        case SUB:
            ARITHMETIC(__builtin_sub_overflow);
            break;

        case MUL:
            ARITHMETIC(__builtin_mul_overflow);
            break;

        case DIV: {
            REQUIRE(sp >= 1 && sp < length, INVALID);
            const int32_t left = cells[sp - 1], right = cells[sp];
            REQUIRE(right != 0, ZERO_DIVISOR);
            REQUIRE(!(left == INT32_MIN && right == -1), OVERFLOW);
            cells[--sp] = left / right;
            break;
        }

        case MOD: {
            REQUIRE(sp >= 1 && sp < length, INVALID);
            const int32_t left = cells[sp - 1], right = cells[sp];
            REQUIRE(right != 0, ZERO_DIVISOR);
            /* INT32_MIN % -1 is 0, but C leaves it undefined. */
            cells[--sp] = right == -1 ? 0 : left % right;
            break;
        }

        case EQ:
            COMPARISON(==);
            break;

        case NEQ:
            COMPARISON(!=);
            break;

        case LE:
            COMPARISON(<);
            break;

        case LEQ:
            COMPARISON(<=);
            break;

        case GR:
            COMPARISON(>);
            break;

        case GEQ:
            COMPARISON(>=);
            break;

        case NEG:
            REQUIRE(INSIDE(sp), INVALID);
            REQUIRE(cells[sp] != INT32_MIN, OVERFLOW);
            cells[sp] = -cells[sp];
            break;

        case NOT:
            REQUIRE(INSIDE(sp), INVALID);
            cells[sp] = !cells[sp];
            break;

        case JUMP:
            JUMP_TO(operand);
            break;

        case JUMPZ:
            REQUIRE(INSIDE(sp), INVALID);
            if (cells[sp] == 0)
                JUMP_TO(operand);
            sp--;
            break;

        case MARK:
            /* The fourth cell is left to call, and may lie outside the store. */
            REQUIRE(INSIDE(sp + 1) && INSIDE(sp + 3), INVALID);
            REQUIRE(IS_PLACE(ep) && IS_PLACE(fp), INVALID);
            REQUIRE(FITS_REGISTER(sp + 4), INVALID);
            cells[sp + 1] = 0;
            cells[sp + 2] = (int32_t)ep;
            cells[sp + 3] = (int32_t)fp;
            sp += 4;
            break;

        case CALL: {
            const int64_t frame = sp - operand - 1;
            REQUIRE(INSIDE(frame) && INSIDE(sp) && IS_PLACE(next), INVALID);
            /* The return address is written before the target is read. */
            const int64_t target = frame == sp ? next : cells[sp];
            REQUIRE(IS_PLACE(target), INVALID);
            REQUIRE(active < MOST_ACTIVE, TOO_MANY_ACTIVE);
            REQUIRE(budget > 0, NO_BUDGET);
            cells[frame] = (int32_t)next;
            next = target;
            fp = frame;
            sp--;
            active++;
            budget--;
            break;
        }

        case ENTER: {
            const int64_t extreme = sp + operand;
            REQUIRE(operand >= 0 && FITS_REGISTER(extreme), INVALID);
            REQUIRE(extreme < length, NO_ROOM);
            ep = extreme;
            break;
        }

        case ALLOC: {
            const int64_t top = sp + operand;
            REQUIRE(operand >= 0 && FITS_REGISTER(top), INVALID);
            REQUIRE(operand == 0 || (INSIDE(sp + 1) && INSIDE(top)), INVALID);
            while (sp < top)
                cells[++sp] = 0;
            break;
        }

        case RETURN: {
            REQUIRE(active > 0 && fp >= 2 && fp < length, INVALID);
            const int32_t saved_pc = cells[fp];
            const int32_t saved_fp = cells[fp - 1];
            const int32_t saved_ep = cells[fp - 2];
            REQUIRE(IS_PLACE(saved_pc), INVALID);
            REQUIRE(IS_PLACE(saved_fp), INVALID);
            REQUIRE(IS_PLACE(saved_ep), INVALID);
            next = saved_pc;
            sp = fp - 3;
            fp = saved_fp;
            ep = saved_ep;
            active--;
            break;
        }

        case CHK:
            REQUIRE(INSIDE(sp), INVALID);
            REQUIRE(IS_PLACE(cells[sp]) && cells[sp] < operand, BAD_INDEX);
            break;

        default:
            REQUIRE(false, INVALID);
        }

        pc = next;
    }

stopped:
    machine->registers = (struct registers){
        .pc = (int32_t)pc, .sp = (int32_t)sp, .fp = (int32_t)fp, .ep = (int32_t)ep,
        .active = active, .budget = budget,
    };
    return stop;
}

/* ---- The script ---- */

enum { MOST_WORDS = 8 }; /* on a line; one more than any command has */

static char *line;
static size_t line_size;
static unsigned long line_number;
static char *words[MOST_WORDS];
static int word_count;

static _Noreturn void fail(const char *message)
{
    fprintf(stderr, "line %lu: %s\n", line_number, message);
    exit(1);
}

/* Splits the next line that holds a command into words; false at the end. */
static bool next_command(void)
{
    while (getline(&line, &line_size, stdin) != -1) {
        line_number++;
        if (line[0] == '#')
            continue;
        word_count = 0;
        for (char *word = strtok(line, " \t\n"); word; word = strtok(NULL, " \t\n")) {
            if (word_count == MOST_WORDS)
                fail("too many words");
            words[word_count++] = word;
        }
        if (word_count > 0)
            return true;
    }
    return false;
}

/* Is the line this command, with so many words after it? */
static bool is_command(const char *name, int arguments)
{
    return word_count == arguments + 1 && strcmp(words[0], name) == 0;
}

static int64_t number(const char *text, int64_t least, int64_t most)
{
    const char *digits = text[0] == '-' ? text + 1 : text;
    const size_t length = strspn(digits, "0123456789");
    if (length == 0 || length > 10 || digits[length] != '\0')
        fail("not a number");
    const int64_t value = strtoll(text, NULL, 10);
    if (value < least || value > most)
        fail("number out of range");
    return value;
}

static void *allocate(void *old, size_t count, size_t size)
{
    void *memory = realloc(old, (count > 0 ? count : 1) * size);
    if (!memory)
        fail("out of memory");
    return memory;
}

/* The word of an instruction line, without its place. */
static uint32_t instruction_word(void)
{
    if (is_command("word", 1))
        return (uint32_t)number(words[1], 0, UINT32_MAX);
    if (word_count > 2)
        fail("too many words");
    for (uint32_t i = 0; i < INSTRUCTIONS; i++) {
        if (strcmp(words[0], names[i]) == 0) {
            const int64_t operand =
                word_count == 2 ? number(words[1], -(1 << 23), (1 << 23) - 1) : 0;
            return i << 24 | ((uint32_t)operand & 0xFFFFFF);
        }
    }
    fail("unknown instruction");
}

/* Reads instruction lines up to `end` in place of the code there was. */
static void read_code(struct machine *machine)
{
    int64_t room = 0;
    machine->code_length = 0;
    for (;;) {
        if (!next_command())
            fail("code without end");
        if (is_command("end", 0))
            return;
        uint32_t place = 0;
        if (word_count > 1 && words[word_count - 1][0] == '@')
            place = (uint32_t)number(words[--word_count] + 1, 0, UINT32_MAX);
        if (machine->code_length == room) {
            room = room > 0 ? 2 * room : 64;
            if (room > INT32_MAX)
                fail("too much code");
            machine->code = allocate(machine->code, (size_t)room, sizeof *machine->code);
            machine->places = allocate(machine->places, (size_t)room, sizeof *machine->places);
        }
        machine->code[machine->code_length] = instruction_word();
        machine->places[machine->code_length] = place;
        machine->code_length++;
    }
}

static void set_store(struct machine *machine)
{
    machine->length = number(words[1], 0, INT32_MAX);
    machine->cells = allocate(machine->cells, (size_t)machine->length, sizeof *machine->cells);
    memset(machine->cells, 0, (size_t)machine->length * sizeof *machine->cells);
}

static void set_cell(struct machine *machine)
{
    const int64_t address = number(words[1], 0, machine->length - 1);
    machine->cells[address] = (int32_t)number(words[2], INT32_MIN, INT32_MAX);
}

static void set_registers(struct machine *machine)
{
    machine->registers = (struct registers){
        .pc = (int32_t)number(words[1], INT32_MIN, INT32_MAX),
        .sp = (int32_t)number(words[2], INT32_MIN, INT32_MAX),
        .fp = (int32_t)number(words[3], INT32_MIN, INT32_MAX),
        .ep = (int32_t)number(words[4], INT32_MIN, INT32_MAX),
        .active = (uint32_t)number(words[5], 0, UINT32_MAX),
        .budget = (uint32_t)number(words[6], 0, UINT32_MAX),
    };
}

static void show_cells(const struct machine *machine)
{
    const int64_t first = number(words[1], 0, machine->length - 1);
    const int64_t last = number(words[2], first, machine->length - 1);
    for (int64_t i = first; i <= last; i++)
        printf("%s%" PRId32, i > first ? " " : "", machine->cells[i]);
    putchar('\n');
}

struct totals {
    uint64_t runs, halted, spent;
};

static void run_and_print(struct machine *machine, struct totals *totals)
{
    const uint32_t budget = machine->registers.budget;
    const enum stop stop = run(machine);
    const struct registers r = machine->registers;
    const uint32_t spent = budget - r.budget;

    if (stop == NO_STOP) {
        printf("halt");
    } else {
        const bool fetched = r.pc >= 0 && r.pc < machine->code_length;
        printf("stop %d %s at %" PRIu32, (int)stop,
               stop < OVERFLOW ? "machine" : "reckoning",
               fetched ? machine->places[r.pc] : 0);
    }
    printf(" | pc %" PRId32 " sp %" PRId32 " fp %" PRId32 " ep %" PRId32
           " active %" PRIu32 " budget %" PRIu32 " spent %" PRIu32 "\n",
           r.pc, r.sp, r.fp, r.ep, r.active, r.budget, spent);

    totals->runs++;
    totals->halted += stop == NO_STOP;
    totals->spent += spent;
}

int main(void)
{
    struct machine machine = {0};
    struct totals totals = {0};

    if (!next_command() || !is_command("reckoning", 1) || strcmp(words[1], "counts") != 0)
        fail("a script begins with: reckoning counts");

    while (next_command()) {
        if (is_command("store", 1))
            set_store(&machine);
        else if (is_command("cell", 2))
            set_cell(&machine);
        else if (is_command("code", 0))
            read_code(&machine);
        else if (is_command("registers", 6))
            set_registers(&machine);
        else if (is_command("run", 0))
            run_and_print(&machine, &totals);
        else if (is_command("show", 2))
            show_cells(&machine);
        else
            fail("unknown command");
    }

    printf("report: %" PRIu64 " runs, %" PRIu64 " halted, %" PRIu64 " stopped, %" PRIu64
           " units spent\n",
           totals.runs, totals.halted, totals.runs - totals.halted, totals.spent);

    free(machine.cells);
    free(machine.code);
    free(machine.places);
    free(line);
    return 0;
}
