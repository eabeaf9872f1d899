/* The processor: the 32 operations and their three modes, by the opcode reference. */
#include "uxn.h"

uint8_t ram[BANKS * 0x10000];
struct stack working, returns;

static struct stack *this_stack, *other_stack;
static uint8_t *taken; /* the pointer that operands are taken at: the stack's own, or in keep mode a copy of it */
static uint8_t kept;
static int is_short;
static uint16_t pc;

uint16_t short_at(uint16_t address)
{
    return (uint16_t)(ram[address] << 8 | ram[(uint16_t)(address + 1)]);
}

static uint8_t take_byte(void)
{
    *taken -= 1;
    return this_stack->bytes[*taken];
}

static uint16_t take_short(void)
{
    uint8_t low = take_byte();
    return (uint16_t)(take_byte() << 8 | low);
}

static uint16_t take(void)
{
    return is_short ? take_short() : take_byte();
}

static void push_byte(struct stack *stack, uint8_t value)
{
    stack->bytes[stack->pointer] = value;
    stack->pointer += 1;
}

static void push_short(struct stack *stack, uint16_t value)
{
    push_byte(stack, (uint8_t)(value >> 8));
    push_byte(stack, (uint8_t)value);
}

static void push_to(struct stack *stack, uint16_t value)
{
    if (is_short)
        push_short(stack, value);
    else
        push_byte(stack, (uint8_t)value);
}

static void push(uint16_t value)
{
    push_to(this_stack, value);
}

static void push_truth(int truth)
{
    push_byte(this_stack, truth ? 1 : 0);
}

static uint16_t jump_target(uint16_t operand)
{
    return is_short ? operand : (uint16_t)(pc + (int8_t)operand);
}

/* The value at an address; the second byte of a short is at `next`. */
static void load(uint16_t address, uint16_t next)
{
    push(is_short ? (uint16_t)(ram[address] << 8 | ram[next]) : ram[address]);
}

static void store(uint16_t address, uint16_t next, uint16_t value)
{
    if (is_short) {
        ram[address] = (uint8_t)(value >> 8);
        ram[next] = (uint8_t)value;
    } else
        ram[address] = (uint8_t)value;
}

static uint16_t relative(uint8_t distance)
{
    return (uint16_t)(pc + (int8_t)distance);
}

static void device_in(void)
{
    uint8_t port = take_byte();
    uint8_t first = read_port(port);
    if (is_short)
        push((uint16_t)(first << 8 | read_port((uint8_t)(port + 1))));
    else
        push(first);
}

static void device_out(void)
{
    uint8_t port = take_byte();
    uint16_t value = take();
    if (is_short) {
        write_port(port, (uint8_t)(value >> 8));
        write_port((uint8_t)(port + 1), (uint8_t)value);
    } else
        write_port(port, (uint8_t)value);
}

static void shift(void)
{
    uint8_t amount = take_byte();
    uint16_t value = take();
    push((uint16_t)(value >> (amount & 0x0f) << (amount >> 4)));
}

static uint16_t immediate(void)
{
    uint16_t value = short_at(pc);
    pc += 2;
    return value;
}

/* The operations without operands of their own: low five bits 0. Answers whether the vector goes on. */
static int step_immediate(uint8_t opcode)
{
    uint16_t distance;
    switch (opcode) {
    case 0x00:
        return 0;
    case 0x20:
        distance = immediate();
        if (take_byte())
            pc += distance;
        break;
    case 0x40:
        distance = immediate();
        pc += distance;
        break;
    case 0x60:
        distance = immediate();
        push_short(&returns, pc);
        pc += distance;
        break;
    default: /* LIT */
        if (is_short)
            push_short(this_stack, immediate());
        else
            push_byte(this_stack, ram[pc++]);
    }
    return 1;
}

static void step_stack(uint8_t operation)
{
    uint16_t a, b, c;
    switch (operation) {
    case 0x01: a = take(); push(a + 1); break;                                      /* INC */
    case 0x02: take(); break;                                                       /* POP */
    case 0x03: b = take(); take(); push(b); break;                                  /* NIP */
    case 0x04: b = take(); a = take(); push(b); push(a); break;                     /* SWP */
    case 0x05: c = take(); b = take(); a = take(); push(b); push(c); push(a); break; /* ROT */
    case 0x06: a = take(); push(a); push(a); break;                                 /* DUP */
    case 0x07: b = take(); a = take(); push(a); push(b); push(a); break;            /* OVR */
    case 0x08: b = take(); a = take(); push_truth(a == b); break;                   /* EQU */
    case 0x09: b = take(); a = take(); push_truth(a != b); break;                   /* NEQ */
    case 0x0a: b = take(); a = take(); push_truth(a > b); break;                    /* GTH */
    case 0x0b: b = take(); a = take(); push_truth(a < b); break;                    /* LTH */
    case 0x0c: a = take(); pc = jump_target(a); break;                              /* JMP */
    case 0x0d: a = take(); if (take_byte()) pc = jump_target(a); break;             /* JCN */
    case 0x0e: a = take(); push_short(other_stack, pc); pc = jump_target(a); break; /* JSR */
    case 0x0f: a = take(); push_to(other_stack, a); break;                          /* STH */
    }
}

static void step_memory(uint8_t operation)
{
    uint16_t a, b;
    switch (operation) {
    case 0x10: a = take_byte(); load(a, (uint8_t)(a + 1)); break;                     /* LDZ */
    case 0x11: a = take_byte(); b = take(); store(a, (uint8_t)(a + 1), b); break;     /* STZ */
    case 0x12: a = relative(take_byte()); load(a, (uint16_t)(a + 1)); break;          /* LDR */
    case 0x13: a = relative(take_byte()); b = take(); store(a, (uint16_t)(a + 1), b); break; /* STR */
    case 0x14: a = take_short(); load(a, (uint16_t)(a + 1)); break;                   /* LDA */
    case 0x15: a = take_short(); b = take(); store(a, (uint16_t)(a + 1), b); break;   /* STA */
    case 0x16: device_in(); break;                                                    /* DEI */
    case 0x17: device_out(); break;                                                   /* DEO */
    }
}

static void step_arithmetic(uint8_t operation)
{
    uint16_t a, b;
    if (operation == 0x1f) { /* SFT */
        shift();
        return;
    }
    b = take();
    a = take();
    switch (operation) {
    case 0x18: push(a + b); break;          /* ADD */
    case 0x19: push(a - b); break;          /* SUB */
    case 0x1a: push((uint16_t)((uint32_t)a * b)); break; /* MUL */
    case 0x1b: push(b ? a / b : 0); break;  /* DIV */
    case 0x1c: push(a & b); break;          /* AND */
    case 0x1d: push(a | b); break;          /* ORA */
    case 0x1e: push(a ^ b); break;          /* EOR */
    }
}

void run_vector(uint16_t address)
{
    pc = address;
    for (;;) {
        uint8_t opcode = ram[pc], operation = opcode & 0x1f;
        instruction_at = pc;
        trace_instruction(pc, opcode);
        pc += 1;
        is_short = opcode & 0x20;
        this_stack = opcode & 0x40 ? &returns : &working;
        other_stack = opcode & 0x40 ? &working : &returns;
        if (operation == 0) {
            this_stack = (opcode & 0x80) ? this_stack : &working;
            taken = &this_stack->pointer;
            if (!step_immediate(opcode))
                return;
            continue;
        }
        kept = this_stack->pointer;
        taken = opcode & 0x80 ? &kept : &this_stack->pointer;
        if (operation < 0x10)
            step_stack(operation);
        else if (operation < 0x18)
            step_memory(operation);
        else
            step_arithmetic(operation);
    }
}
