/* The plain and the watched run, on the host's bytes. */
#include "interpreter.h"
#include "evaluation.h"
#include "observation.h"

static inline bool truth(machine *m, value v)
{
    return whole(m, v) != 0;
}

/* The place comes first; whether it leads to a cell is found at the store. */
static inline void assign(machine *m, const record *r)
{
    const record *place = child(m, r, 0), *expression = child(m, r, 1);
    if (place->kind == 10) {
        put(m->homes[place->mark], operand(m, expression));
        return;
    }
    value p = pointed(m, place), v = operand(m, expression);
    put(cell_at(m, p), v);
}

static inline void allocate(machine *m, const record *r)
{
    const record *place = child(m, r, 0);
    value p = address(m, place);
    int64_t size = whole(m, operand(m, child(m, r, 1)));
    if (size < 1)
        stop(m, 45);
    unsigned name = make_block(m, FREEABLE, size);
    put(cell_at(m, p), pointer(name, 0));
}

static inline void claim(machine *m, bool holding)
{
    if (!holding)
        stop(m, 33);
}

static inline value operate_held(machine *m, const record *r)
{
    value a = held(m, r->mark + 1), b = held(m, r->mark + 2);
    return operate(m, r->child[2], a, b, m->observation->blocks);
}

static inline void store_held(machine *m, const record *r)
{
    value p = held(m, r->mark), n = held(m, r->mark + 1);
    store_block(m, pointing(m, p), whole(m, n));
}

static inline bool turns(machine *m, const record *r)
{
    if (m->fuel == 0)
        stop(m, 32);
    m->fuel--;
    return truth(m, operand(m, child(m, r, 0)));
}

/* What comes after a statement is kept on a stack: record numbers, a let's end as LEAVE and its variable, and END. */
enum { LEAVE = 0x4000, END = 0x8000 };

static void run(machine *m, unsigned n)
{
    uint16_t after[TARGET_RECORDS + 1], *top = after;
    *top = END;
    for (;;) {
        const record *r = &m->table[n];
        for (; r->kind == 44; r = child(m, r, 0))
            *++top = r->child[1];
        m->at = r;
        switch (r->kind) {
        case 40: break;
        case 41: assign(m, r); break;
        case 42: allocate(m, r); break;
        case 43: free_block(m, pointing(m, operand(m, child(m, r, 0)))); break;
        case 45: n = r->child[truth(m, operand(m, child(m, r, 0))) ? 1 : 2]; continue;
        case 46:
            if (!turns(m, r))
                break;
            *++top = r - m->table;
            n = r->child[1];
            continue;
        case 47:
            enter_let(m, r->mark);
            *++top = LEAVE + r->mark;
            n = r->child[0];
            continue;
        case 48: claim(m, holds(m, child(m, r, 0))); break;
        case 60: m->temporaries[r->mark] = address(m, child(m, r, 0)); break;
        case 61: m->temporaries[r->mark] = operand(m, child(m, r, 0)); break;
        case 63: m->temporaries[r->mark] = operate_held(m, r); break;
        case 64: m->temporaries[r->mark] = query_observation(m, r->child[2], pointing(m, held(m, r->mark + 1))); break;
        case 65: m->temporaries[r->mark] = integer(whole(m, held(m, r->mark + 1)) == 0); break;
        case 66: n = r->child[truth(m, held(m, r->mark)) ? 1 : 2]; continue;
        case 67: claim(m, truth(m, held(m, r->mark))); break;
        case 68: store_held(m, r); break;
        case 69: delete_block(m, pointing(m, held(m, r->mark))); break;
        case 70: initialise(m, pointing(m, held(m, r->mark))); break;
        default: __builtin_unreachable();
        }
        while ((n = *top--) >= LEAVE) {
            if (n == END)
                return;
            leave_let(m, n - LEAVE);
        }
    }
}

/* Block 1 is variable 0's cell, block 2 the inputs. */
static void start(machine *m, const uint8_t *inputs, unsigned count)
{
    execution_memory *memory = m->memory;
    memset(memory, 0, sizeof *memory);
    memory->blocks[0] = (block){.state = FIXED, .length = 1};
    memory->blocks[1] = (block){.state = FIXED, .first = 1, .length = count};
    memory->cells[0] = (cell){pointer(2, 0).word | 1 << OWNER_AT, 0};
    for (unsigned i = 0; i < count; i++) {
        memory->cells[i + 1].word = INTEGER | 2 << OWNER_AT;
        memcpy(&memory->cells[i + 1].number, inputs + i * 8, 8);
    }
    m->homes[0] = &memory->cells[0];
    m->names_given = 2;
    m->free_cells = CELLS - 1 - count;
    start_places(&m->cells, count + 1);
}

static void start_observation(machine *m, unsigned count)
{
    observation_memory *observation = m->observation;
    memset(observation, 0, sizeof *observation);
    observation->blocks[0] = (block){.state = RECORDED, .length = 1};
    observation->blocks[1] = (block){.state = RECORDED, .first = 1, .length = count};
    memset(observation->marks, 1, count + 1);
    start_places(&m->marks, count + 1);
    memset(m->temporaries, 0, sizeof m->temporaries);
}

/* A run from its started memories to its ending. */
static recorder_answer run_to_ending(machine *m, unsigned count)
{
    int number = setjmp(m->ending);
    if (number == 0) {
        run(m, count);
        return (recorder_answer){0, 0, m->fuel, m->free_cells};
    }
    uint32_t statement = m->observation ? m->at->literal : m->at - m->table;
    return (recorder_answer){number, statement, m->fuel, m->free_cells};
}

static recorder_answer refusal(uint32_t number)
{
    return (recorder_answer){number, 0, 0, 0};
}

static bool inputs_fault(size_t inputs_len)
{
    return inputs_len == 0 || inputs_len % 8 != 0 || inputs_len > INPUTS * 8;
}

recorder_answer interpreter_run_plain(const uint8_t *table, size_t table_len, const uint8_t *inputs, size_t inputs_len,
                                      uint32_t fuel, uint8_t *memory, size_t memory_len)
{
    recorder_answer checked = interpreter_check_source(table, table_len);
    if (checked.number != 0)
        return checked;
    if (inputs_fault(inputs_len))
        return refusal(9);
    if (memory_len != sizeof(execution_memory))
        return refusal(21);
    machine m;
    m.table = (const record *)table - 1;
    m.memory = (execution_memory *)memory;
    m.observation = NULL;
    m.fuel = fuel;
    start(&m, inputs, inputs_len / 8);
    return run_to_ending(&m, table_len / sizeof(record));
}

recorder_answer interpreter_run_watched(const uint8_t *table, size_t table_len, const uint8_t *inputs,
                                        size_t inputs_len, uint32_t fuel, uint8_t *memory, size_t memory_len,
                                        uint8_t *observation, size_t observation_len)
{
    recorder_answer checked = interpreter_check_target(table, table_len);
    if (checked.number != 0)
        return checked;
    if (inputs_fault(inputs_len))
        return refusal(9);
    if (memory_len != sizeof(execution_memory))
        return refusal(21);
    if (observation_len != sizeof(observation_memory))
        return refusal(22);
    machine m;
    m.table = (const record *)table - 1;
    m.memory = (execution_memory *)memory;
    m.observation = (observation_memory *)observation;
    m.fuel = fuel;
    start(&m, inputs, inputs_len / 8);
    start_observation(&m, inputs_len / 8);
    return run_to_ending(&m, table_len / sizeof(record));
}
