/*
 * Lowers three rules and prints what comes back: one that is accepted, one that is refused, and a condition whose jump
 * is then patched. `examples/run` builds and runs it.
 */
#include <inttypes.h>
#include <stdio.h>
#include <string.h>

#include "sewurogi.h"

#define COUNT(array) (sizeof(array) / sizeof *(array))

/* On x86-64 an array of uint32_t has the bytes that the functions ask for. */
enum { NODE_WORDS = 6, INSTRUCTION_WORDS = 4, CONSTANT_WORDS = 3, RESULT_WORDS = 8 };

/* The symbol that stands for the name `flow`. Symbols are the caller's own. */
enum { FLOW = 7 };

static uint32_t code[64][INSTRUCTION_WORDS];
static uint32_t constants[16][CONSTANT_WORDS];
static uint32_t marks[16];

/* Each instruction's name, and how many fields it has. */
static const struct {
    const char *name;
    int fields;
} instructions[] = {
    [SEWUROGI_INSTRUCTION_ADD] = {"Add", 3},
    [SEWUROGI_INSTRUCTION_ADD_K] = {"AddK", 3},
    [SEWUROGI_INSTRUCTION_SUBTRACT] = {"Subtract", 3},
    [SEWUROGI_INSTRUCTION_SUBTRACT_RK] = {"SubtractRK", 3},
    [SEWUROGI_INSTRUCTION_SUBTRACT_KR] = {"SubtractKR", 3},
    [SEWUROGI_INSTRUCTION_MULTIPLY] = {"Multiply", 3},
    [SEWUROGI_INSTRUCTION_MULTIPLY_K] = {"MultiplyK", 3},
    [SEWUROGI_INSTRUCTION_DIVIDE] = {"Divide", 3},
    [SEWUROGI_INSTRUCTION_DIVIDE_RK] = {"DivideRK", 3},
    [SEWUROGI_INSTRUCTION_DIVIDE_KR] = {"DivideKR", 3},
    [SEWUROGI_INSTRUCTION_MODULO] = {"Modulo", 3},
    [SEWUROGI_INSTRUCTION_MODULO_RK] = {"ModuloRK", 3},
    [SEWUROGI_INSTRUCTION_MODULO_KR] = {"ModuloKR", 3},
    [SEWUROGI_INSTRUCTION_EQUAL] = {"Equal", 3},
    [SEWUROGI_INSTRUCTION_EQUAL_K] = {"EqualK", 3},
    [SEWUROGI_INSTRUCTION_NOT_EQUAL] = {"NotEqual", 3},
    [SEWUROGI_INSTRUCTION_NOT_EQUAL_K] = {"NotEqualK", 3},
    [SEWUROGI_INSTRUCTION_LESS] = {"Less", 3},
    [SEWUROGI_INSTRUCTION_LESS_RK] = {"LessRK", 3},
    [SEWUROGI_INSTRUCTION_LESS_KR] = {"LessKR", 3},
    [SEWUROGI_INSTRUCTION_LESS_EQUAL] = {"LessEqual", 3},
    [SEWUROGI_INSTRUCTION_LESS_EQUAL_RK] = {"LessEqualRK", 3},
    [SEWUROGI_INSTRUCTION_LESS_EQUAL_KR] = {"LessEqualKR", 3},
    [SEWUROGI_INSTRUCTION_NOT] = {"Not", 2},
    [SEWUROGI_INSTRUCTION_NEGATE] = {"Negate", 2},
    [SEWUROGI_INSTRUCTION_MOVE] = {"Move", 2},
    [SEWUROGI_INSTRUCTION_LOAD_CONST] = {"LoadConst", 2},
    [SEWUROGI_INSTRUCTION_CREATE_MAP] = {"CreateMap", 1},
    [SEWUROGI_INSTRUCTION_SET_PROPERTY] = {"SetProperty", 3},
    [SEWUROGI_INSTRUCTION_SET_PROPERTY_RK] = {"SetPropertyRK", 3},
    [SEWUROGI_INSTRUCTION_SET_PROPERTY_KR] = {"SetPropertyKR", 3},
    [SEWUROGI_INSTRUCTION_SET_PROPERTY_KK] = {"SetPropertyKK", 3},
    [SEWUROGI_INSTRUCTION_GET_PROPERTY] = {"GetProperty", 3},
    [SEWUROGI_INSTRUCTION_GET_PROPERTY_K] = {"GetPropertyK", 3},
    [SEWUROGI_INSTRUCTION_SET_ELEMENT] = {"SetElement", 3},
    [SEWUROGI_INSTRUCTION_CREATE_CLOSURE] = {"CreateClosure", 3},
    [SEWUROGI_INSTRUCTION_CREATE_REF] = {"CreateRef", 2},
    [SEWUROGI_INSTRUCTION_DEREF_SET] = {"DerefSet", 2},
    [SEWUROGI_INSTRUCTION_DEREF] = {"Deref", 2},
    [SEWUROGI_INSTRUCTION_CALL] = {"Call", 3},
    [SEWUROGI_INSTRUCTION_RETURN] = {"Return", 1},
    [SEWUROGI_INSTRUCTION_JUMP] = {"Jump", 1},
    [SEWUROGI_INSTRUCTION_JUMP_IF_FALSE] = {"JumpIfFalse", 2},
    [SEWUROGI_INSTRUCTION_JUMP_IF_TRUE] = {"JumpIfTrue", 2},
    [SEWUROGI_INSTRUCTION_JUMP_IF_LESS] = {"JumpIfLess", 3},
    [SEWUROGI_INSTRUCTION_JUMP_IF_LESS_RK] = {"JumpIfLessRK", 3},
    [SEWUROGI_INSTRUCTION_JUMP_IF_LESS_KR] = {"JumpIfLessKR", 3},
    [SEWUROGI_INSTRUCTION_JUMP_IF_LESS_EQUAL] = {"JumpIfLessEqual", 3},
    [SEWUROGI_INSTRUCTION_JUMP_IF_LESS_EQUAL_RK] = {"JumpIfLessEqualRK", 3},
    [SEWUROGI_INSTRUCTION_JUMP_IF_LESS_EQUAL_KR] = {"JumpIfLessEqualKR", 3},
    [SEWUROGI_INSTRUCTION_JUMP_IF_EQUAL] = {"JumpIfEqual", 3},
    [SEWUROGI_INSTRUCTION_JUMP_IF_EQUAL_K] = {"JumpIfEqualK", 3},
    [SEWUROGI_INSTRUCTION_JUMP_IF_NOT_EQUAL] = {"JumpIfNotEqual", 3},
    [SEWUROGI_INSTRUCTION_JUMP_IF_NOT_EQUAL_K] = {"JumpIfNotEqualK", 3},
    [SEWUROGI_INSTRUCTION_CAPTURE_VALUE] = {"CaptureValue", 1},
};

static const char *const refusals[] = {
    [SEWUROGI_ACCEPTED] = "accepted",
    [SEWUROGI_REFUSED_SIZE] = "too few or too many records, or no whole ones",
    [SEWUROGI_REFUSED_ROOT] = "no such mode or root",
    [SEWUROGI_REFUSED_KIND] = "no such kind of node",
    [SEWUROGI_REFUSED_UNUSED] = "a word out of its range",
    [SEWUROGI_REFUSED_NUMBER] = "a NaN or minus zero",
    [SEWUROGI_REFUSED_LIST] = "list words outside the list, or too many arguments",
    [SEWUROGI_REFUSED_ORDER] = "a child that is not lower",
    [SEWUROGI_REFUSED_PARAMETERS] = "too many parameters",
    [SEWUROGI_REFUSED_UNDECLARED] = "a name that is no parameter",
    [SEWUROGI_REFUSED_REGISTERS] = "no register is free",
    [SEWUROGI_REFUSED_ELSE] = "an if without else",
    [SEWUROGI_REFUSED_KEY] = "a key without value that is no name",
    [SEWUROGI_REFUSED_CODE] = "no room for code",
    [SEWUROGI_REFUSED_CONSTANTS] = "no room for constants",
    [SEWUROGI_REFUSED_UNMARKED] = "an argument before any instruction",
    [SEWUROGI_REFUSED_MARKS] = "no room for marks",
    [SEWUROGI_REFUSED_DESTINATION] = "an argument whose destination cannot be moved",
    [SEWUROGI_REFUSED_SUM] = "an argument's register above 255",
    [SEWUROGI_REFUSED_JUMP] = "no jump of the code",
};

static void print_constant(const uint32_t words[CONSTANT_WORDS])
{
    uint64_t bits = (uint64_t)words[2] << 32 | words[1];
    double number;

    switch (words[0]) {
    case SEWUROGI_CONSTANT_NIL:
        printf("nil\n");
        break;
    case SEWUROGI_CONSTANT_BOOLEAN:
        printf("%s\n", words[1] ? "true" : "false");
        break;
    case SEWUROGI_CONSTANT_NUMBER:
        memcpy(&number, &bits, sizeof number);
        printf("%g\n", number);
        break;
    default:
        printf("string %" PRIu32 "\n", words[1]);
    }
}

static void print_instructions(uint32_t count)
{
    for (uint32_t i = 0; i < count; i++) {
        printf("%5" PRIu32 "  %s", i, instructions[code[i][0]].name);
        for (int field = 1; field <= instructions[code[i][0]].fields; field++)
            printf(" %" PRId32, (int32_t)code[i][field]);
        printf("\n");
    }
}

/* Lowers a rule whose root is its last node and whose one parameter is flow. Returns the index of its jump. */
static uint32_t lower(const char *source, const uint32_t nodes[][NODE_WORDS], size_t count, uint32_t mode)
{
    const uint32_t names[] = {FLOW};
    uint32_t result[RESULT_WORDS];
    uint32_t number;

    /* There are no calls and no maps here, and so there is no list. */
    sewurogi_lower((const uint8_t *)nodes, count * SEWUROGI_NODE_BYTES,
                   (uint32_t)count - 1, mode,
                   NULL, 0,
                   (const uint8_t *)names, sizeof names,
                   (uint8_t *)code, sizeof code,
                   (uint8_t *)constants, sizeof constants,
                   (uint8_t *)marks, sizeof marks,
                   (uint8_t *)result, sizeof result);

    number = result[SEWUROGI_RESULT_NUMBER];
    printf("%s\n", source);
    if (number == SEWUROGI_ACCEPTED)
        printf("accepted: frame size %" PRIu32 ", arity %" PRIu32 "\n",
               result[SEWUROGI_RESULT_FRAME_SIZE], result[SEWUROGI_RESULT_ARITY]);
    else
        printf("refused, number %" PRIu32 ": %s; place %" PRIu32 ", span %" PRIu32 " to %" PRIu32 "\n",
               number, refusals[number], result[SEWUROGI_RESULT_PLACE],
               result[SEWUROGI_RESULT_SPAN_START], result[SEWUROGI_RESULT_SPAN_END]);
    printf("instructions\n");
    print_instructions(result[SEWUROGI_RESULT_INSTRUCTIONS]);
    printf("constants\n");
    for (uint32_t i = 0; i < result[SEWUROGI_RESULT_CONSTANTS]; i++) {
        printf("%5" PRIu32 "  ", i);
        print_constant(constants[i]);
    }
    return result[SEWUROGI_RESULT_PLACE];
}

int main(void)
{
    /* The high word of each number; the low words are 0. */
    enum { ONE = 1072693248, TWO = 1073741824, THREE = 1074266112 };

    /* The last two words of a node are its span: here, where it stands in the text of the rule. */
    const uint32_t rule[][NODE_WORDS] = {
        {SEWUROGI_NODE_IDENTIFIER, FLOW, 0, 0, 3, 7},
        {SEWUROGI_NODE_NUMBER, 0, THREE, 0, 10, 11},
        {SEWUROGI_NODE_BINARY, SEWUROGI_BINARY_LESS, 0, 1, 3, 11},
        {SEWUROGI_NODE_NUMBER, 0, ONE, 0, 12, 13},
        {SEWUROGI_NODE_NUMBER, 0, TWO, 0, 19, 20},
        {SEWUROGI_NODE_IF, 2, 3, 4, 0, 20},
    };
    const uint32_t without_else[][NODE_WORDS] = {
        {SEWUROGI_NODE_IDENTIFIER, FLOW, 0, 0, 3, 7},
        {SEWUROGI_NODE_NUMBER, 0, THREE, 0, 10, 11},
        {SEWUROGI_NODE_BINARY, SEWUROGI_BINARY_LESS, 0, 1, 3, 11},
        {SEWUROGI_NODE_NUMBER, 0, ONE, 0, 12, 13},
        {SEWUROGI_NODE_IF, 2, 3, SEWUROGI_ABSENT, 0, 13},
    };
    uint32_t jump, number;

    lower("if flow < 3 1 else 2", rule, COUNT(rule), SEWUROGI_MODE_VALUE);
    printf("\n");
    lower("if flow < 3 1", without_else, COUNT(without_else), SEWUROGI_MODE_VALUE);
    printf("\n");
    /* The condition alone: its first three nodes. */
    jump = lower("flow < 3, jump if false", rule, 3, SEWUROGI_MODE_JUMP_IF_FALSE);
    number = sewurogi_patch_jump((uint8_t *)code, sizeof code, 1, jump, 12);
    printf("jump %" PRIu32 " patched by 12: %s\n", jump, refusals[number]);
    print_instructions(1);
    number = sewurogi_patch_jump((uint8_t *)code, sizeof code, 1, 1, 12);
    printf("jump 1 patched by 12: refused, number %" PRIu32 ": %s\n", number, refusals[number]);
    return 0;
}
