/*
 * Sewurogi: feeder rules lowered to register code. C99 and C++, for x86-64.
 *
 * A rule is an array of nodes. `sewurogi_lower` turns it into instructions and constants, or refuses it and says why.
 * `sewurogi_patch_jump` sets where a jump goes.
 *
 *     tools/archive                                             (proves the functions, then writes the archive)
 *     cc -Iinclude examples/lower.c target/staticlib/libexports.a
 *
 * Rules that hold for every function:
 *
 * - Words are unsigned, 32 bits, little-endian. Records are words one after the other, in byte arrays of any alignment.
 * - An array is a pointer and its length in bytes. The pointer may be null if the length is 0.
 * - An array that is written may not overlap any other. Arrays that are only read (`const`) may overlap each other.
 * - Nothing else is asked. Any bytes, any numbers and any lengths are answered: a length that is no multiple of a
 *   record, a node of no kind, an index past the end. No byte outside the arrays is touched.
 * - Nothing is kept between calls, and nothing is allocated. Calls from several threads at once do not disturb each
 *   other, if no array that one writes is used by another.
 * - What a function answers and every byte that it writes is proved equal to the definition of lowering. The order of
 *   the parameters below is not part of the proof; tests hold it.
 */
#ifndef SEWUROGI_H
#define SEWUROGI_H

#include <stddef.h>
#include <stdint.h>

#ifdef __cplusplus
extern "C" {
#endif

/*
 * Stack. `sewurogi_lower` takes more stack the deeper its rule is nested, up to 4,096 levels. A thread whose stack has
 * this many bytes holds every rule, with 500,000 bytes left for the caller; the first thread of a Linux program has them
 * unless `ulimit -s` says less. docs/PERFORMANCE.md has what a level takes, for threads that have less. Stack is
 * measured, not proved. `sewurogi_patch_jump` takes next to none.
 */
#define SEWUROGI_STACK_BYTES 8388608

/* The bytes of one record. */
#define SEWUROGI_NODE_BYTES 24
#define SEWUROGI_INSTRUCTION_BYTES 16
#define SEWUROGI_CONSTANT_BYTES 12
#define SEWUROGI_WORD_BYTES 4    /* a list word, a parameter, a mark */
#define SEWUROGI_RESULT_BYTES 32 /* eight words */

/* The most of each that a rule may have. */
#define SEWUROGI_MAX_NODES 4096
#define SEWUROGI_MAX_LIST_WORDS 8192
#define SEWUROGI_MAX_PARAMETERS 256
#define SEWUROGI_MAX_ARGUMENTS 255
#define SEWUROGI_MAX_INSTRUCTIONS 1048576

/* Stands for a part that a node does not have: an else, a block's tail, a map entry's value. */
#define SEWUROGI_ABSENT 4294967295u

/*
 * A node is six words: its kind, a, b, c, and the start and the end of its span. Spans are the caller's own: they are
 * only handed back with a refusal. A child is the index of a node, from 0, and must be lower than the index of the node
 * that names it. A node may be named more than once. Words that a kind does not use are 0.
 */
enum sewurogi_node {
    SEWUROGI_NODE_NUMBER = 0,          /* a, b: low and high word of a binary64; neither a NaN nor minus zero */
    SEWUROGI_NODE_STRING = 1,          /* a: symbol */
    SEWUROGI_NODE_BOOLEAN = 2,         /* a: 0 or 1 */
    SEWUROGI_NODE_NIL = 3,
    SEWUROGI_NODE_IDENTIFIER = 4,      /* a: symbol, the name of a parameter */
    SEWUROGI_NODE_BINARY = 5,          /* a: enum sewurogi_binary; b, c: left and right child */
    SEWUROGI_NODE_UNARY = 6,           /* a: enum sewurogi_unary; b: child */
    SEWUROGI_NODE_LOGICAL_NOT = 7,     /* a: child */
    SEWUROGI_NODE_LOGICAL_AND = 8,     /* a, b: left and right child */
    SEWUROGI_NODE_LOGICAL_OR = 9,      /* a, b: left and right child */
    SEWUROGI_NODE_IF = 10,             /* a, b, c: condition, then, else (or absent, which is refused when it is met) */
    SEWUROGI_NODE_BLOCK = 11,          /* a: tail, or absent */
    SEWUROGI_NODE_FUNCTION_CALL = 12,  /* a: callee; b: index of its first list word; c: how many arguments */
    SEWUROGI_NODE_PROPERTY_ACCESS = 13, /* a: object; b: symbol */
    SEWUROGI_NODE_MAP = 14             /* a: index of its first list word; b: how many entries, two list words each: a
                                          key, and a value or absent */
};

enum sewurogi_binary {
    SEWUROGI_BINARY_ADD = 0,
    SEWUROGI_BINARY_SUBTRACT = 1,
    SEWUROGI_BINARY_MULTIPLY = 2,
    SEWUROGI_BINARY_DIVIDE = 3,
    SEWUROGI_BINARY_MODULO = 4,
    SEWUROGI_BINARY_EQUAL = 5,
    SEWUROGI_BINARY_NOT_EQUAL = 6,
    SEWUROGI_BINARY_GREATER = 7,
    SEWUROGI_BINARY_GREATER_EQUAL = 8,
    SEWUROGI_BINARY_LESS = 9,
    SEWUROGI_BINARY_LESS_EQUAL = 10
};

enum sewurogi_unary {
    SEWUROGI_UNARY_NEGATE = 0,
    SEWUROGI_UNARY_DEREF = 1
};

/* What the code is to do with the root's value. */
enum sewurogi_mode {
    SEWUROGI_MODE_VALUE = 0,         /* return it */
    SEWUROGI_MODE_JUMP_IF_FALSE = 1, /* jump where it is false, else go on past the code; no Return is made */
    SEWUROGI_MODE_JUMP_IF_TRUE = 2   /* the same where it is true */
};

/* The words of a result, by their index. */
enum sewurogi_result {
    SEWUROGI_RESULT_NUMBER = 0,       /* enum sewurogi_number */
    SEWUROGI_RESULT_PLACE = 1,        /* accepted: in modes 1 and 2 the index of the jump that is left to patch.
                                         Refused: the index that enum sewurogi_number names. Otherwise 0 */
    SEWUROGI_RESULT_SPAN_START = 2,   /* the span of the node at that place, where the number says so; otherwise 0 */
    SEWUROGI_RESULT_SPAN_END = 3,
    SEWUROGI_RESULT_INSTRUCTIONS = 4, /* how many instructions and constants were made, refused or not */
    SEWUROGI_RESULT_CONSTANTS = 5,
    SEWUROGI_RESULT_FRAME_SIZE = 6,   /* the code's own registers are below it, a call's arguments from it on;
                                         refused: 0 */
    SEWUROGI_RESULT_ARITY = 7         /* how many parameters the rule has; refused: 0 */
};

/* Why a rule, or a patch, was refused. With 1 to 8 nothing is written, and both counts are 0. */
enum sewurogi_number {
    SEWUROGI_ACCEPTED = 0,
    SEWUROGI_REFUSED_SIZE = 1,        /* no nodes or more than 4,096, more than 8,192 list words, or no whole records */
    SEWUROGI_REFUSED_ROOT = 2,        /* the mode is none of 0 to 2, or the root is no node */
    SEWUROGI_REFUSED_KIND = 3,        /* a node's kind is above 14. Place: the node */
    SEWUROGI_REFUSED_UNUSED = 4,      /* a boolean or an operator is out of range, or an unused word is not 0.
                                         Place: the node */
    SEWUROGI_REFUSED_NUMBER = 5,      /* a number is a NaN or minus zero. Place: the node */
    SEWUROGI_REFUSED_LIST = 6,        /* a node's list words are not inside the list, or a call has more than 255
                                         arguments. Place: the node */
    SEWUROGI_REFUSED_ORDER = 7,       /* a node names one that is not lower than itself. Place: the node */
    SEWUROGI_REFUSED_PARAMETERS = 8,  /* more than 256 parameters */
    SEWUROGI_REFUSED_UNDECLARED = 9,  /* a name is no parameter. Place and span: the name */
    SEWUROGI_REFUSED_REGISTERS = 10,  /* all 256 registers are held */
    SEWUROGI_REFUSED_ELSE = 11,       /* an if has no else. Place and span: the if */
    SEWUROGI_REFUSED_KEY = 12,        /* a map's key without a value is no name. Place and span: the key */
    SEWUROGI_REFUSED_CODE = 13,       /* `code` is full, or 1,048,576 instructions are made */
    SEWUROGI_REFUSED_CONSTANTS = 14,  /* `constants` is full */
    SEWUROGI_REFUSED_UNMARKED = 15,   /* an argument comes before any instruction. Place and span: the call */
    SEWUROGI_REFUSED_MARKS = 16,      /* `marks` is full */
    SEWUROGI_REFUSED_DESTINATION = 17, /* an argument's last instruction has no destination that can be moved.
                                          Place: the instruction */
    SEWUROGI_REFUSED_SUM = 18,        /* an argument's register would be above 255. Place: the instruction */
    SEWUROGI_REFUSED_JUMP = 19        /* patching: that is no jump of the code */
};

/*
 * A constant is three words: its kind, low, high. A boolean's 0 or 1 and a string's symbol are the low word; a number
 * is the two words of its binary64. Words that a kind does not use are 0.
 */
enum sewurogi_constant {
    SEWUROGI_CONSTANT_NIL = 0,
    SEWUROGI_CONSTANT_BOOLEAN = 1,
    SEWUROGI_CONSTANT_NUMBER = 2,
    SEWUROGI_CONSTANT_STRING = 3
};

/*
 * An instruction is four words: its kind and its fields, in the order given here, then 0s. A field is a register unless
 * its comment says otherwise; a constant is given by its index in `constants`. The parameters are registers 0 upward. A
 * jump goes to its own index plus `offset`, which is signed, in two's complement.
 */
enum sewurogi_instruction {
    SEWUROGI_INSTRUCTION_ADD = 0,                        /* dest, src1, src2 */
    SEWUROGI_INSTRUCTION_ADD_K = 1,                      /* dest, src1, src2 (constant) */
    SEWUROGI_INSTRUCTION_SUBTRACT = 2,                   /* dest, src1, src2 */
    SEWUROGI_INSTRUCTION_SUBTRACT_RK = 3,                /* dest, src1, src2 (constant) */
    SEWUROGI_INSTRUCTION_SUBTRACT_KR = 4,                /* dest, src1 (constant), src2 */
    SEWUROGI_INSTRUCTION_MULTIPLY = 5,                   /* dest, src1, src2 */
    SEWUROGI_INSTRUCTION_MULTIPLY_K = 6,                 /* dest, src1, src2 (constant) */
    SEWUROGI_INSTRUCTION_DIVIDE = 7,                     /* dest, src1, src2 */
    SEWUROGI_INSTRUCTION_DIVIDE_RK = 8,                  /* dest, src1, src2 (constant) */
    SEWUROGI_INSTRUCTION_DIVIDE_KR = 9,                  /* dest, src1 (constant), src2 */
    SEWUROGI_INSTRUCTION_MODULO = 10,                    /* dest, src1, src2 */
    SEWUROGI_INSTRUCTION_MODULO_RK = 11,                 /* dest, src1, src2 (constant) */
    SEWUROGI_INSTRUCTION_MODULO_KR = 12,                 /* dest, src1 (constant), src2 */
    SEWUROGI_INSTRUCTION_EQUAL = 13,                     /* dest, src1, src2 */
    SEWUROGI_INSTRUCTION_EQUAL_K = 14,                   /* dest, src1, src2 (constant) */
    SEWUROGI_INSTRUCTION_NOT_EQUAL = 15,                 /* dest, src1, src2 */
    SEWUROGI_INSTRUCTION_NOT_EQUAL_K = 16,               /* dest, src1, src2 (constant) */
    SEWUROGI_INSTRUCTION_LESS = 17,                      /* dest, src1, src2 */
    SEWUROGI_INSTRUCTION_LESS_RK = 18,                   /* dest, src1, src2 (constant) */
    SEWUROGI_INSTRUCTION_LESS_KR = 19,                   /* dest, src1 (constant), src2 */
    SEWUROGI_INSTRUCTION_LESS_EQUAL = 20,                /* dest, src1, src2 */
    SEWUROGI_INSTRUCTION_LESS_EQUAL_RK = 21,             /* dest, src1, src2 (constant) */
    SEWUROGI_INSTRUCTION_LESS_EQUAL_KR = 22,             /* dest, src1 (constant), src2 */
    SEWUROGI_INSTRUCTION_NOT = 23,                       /* dest, src */
    SEWUROGI_INSTRUCTION_NEGATE = 24,                    /* dest, src */
    SEWUROGI_INSTRUCTION_MOVE = 25,                      /* dest, src */
    SEWUROGI_INSTRUCTION_LOAD_CONST = 26,                /* dest, src (constant) */
    SEWUROGI_INSTRUCTION_CREATE_MAP = 27,                /* dest */
    SEWUROGI_INSTRUCTION_SET_PROPERTY = 28,              /* object, key, value */
    SEWUROGI_INSTRUCTION_SET_PROPERTY_RK = 29,           /* object, key, value (constant) */
    SEWUROGI_INSTRUCTION_SET_PROPERTY_KR = 30,           /* object, key (constant), value */
    SEWUROGI_INSTRUCTION_SET_PROPERTY_KK = 31,           /* object, key (constant), value (constant) */
    SEWUROGI_INSTRUCTION_GET_PROPERTY = 32,              /* dest, object, key */
    SEWUROGI_INSTRUCTION_GET_PROPERTY_K = 33,            /* dest, object, key (constant) */
    SEWUROGI_INSTRUCTION_SET_ELEMENT = 34,               /* object, key, value */
    SEWUROGI_INSTRUCTION_CREATE_CLOSURE = 35,            /* dest, captures (a count), src (an index) */
    SEWUROGI_INSTRUCTION_CREATE_REF = 36,                /* dest, src */
    SEWUROGI_INSTRUCTION_DEREF_SET = 37,                 /* dest, src */
    SEWUROGI_INSTRUCTION_DEREF = 38,                     /* dest, src */
    SEWUROGI_INSTRUCTION_CALL = 39,                      /* dest, src, arity (a count) */
    SEWUROGI_INSTRUCTION_RETURN = 40,                    /* src */
    SEWUROGI_INSTRUCTION_JUMP = 41,                      /* offset */
    SEWUROGI_INSTRUCTION_JUMP_IF_FALSE = 42,             /* src, offset */
    SEWUROGI_INSTRUCTION_JUMP_IF_TRUE = 43,              /* src, offset */
    SEWUROGI_INSTRUCTION_JUMP_IF_LESS = 44,              /* src1, src2, offset */
    SEWUROGI_INSTRUCTION_JUMP_IF_LESS_RK = 45,           /* src1, src2 (constant), offset */
    SEWUROGI_INSTRUCTION_JUMP_IF_LESS_KR = 46,           /* src2, src1 (constant), offset: in this order */
    SEWUROGI_INSTRUCTION_JUMP_IF_LESS_EQUAL = 47,        /* src1, src2, offset */
    SEWUROGI_INSTRUCTION_JUMP_IF_LESS_EQUAL_RK = 48,     /* src1, src2 (constant), offset */
    SEWUROGI_INSTRUCTION_JUMP_IF_LESS_EQUAL_KR = 49,     /* src2, src1 (constant), offset: in this order */
    SEWUROGI_INSTRUCTION_JUMP_IF_EQUAL = 50,             /* src1, src2, offset */
    SEWUROGI_INSTRUCTION_JUMP_IF_EQUAL_K = 51,           /* src1, src2 (constant), offset */
    SEWUROGI_INSTRUCTION_JUMP_IF_NOT_EQUAL = 52,         /* src1, src2, offset */
    SEWUROGI_INSTRUCTION_JUMP_IF_NOT_EQUAL_K = 53,       /* src1, src2 (constant), offset */
    SEWUROGI_INSTRUCTION_CAPTURE_VALUE = 54              /* src */
};

/*
 * Lowers the rule at `root`, and puts eight words into `result`.
 *
 * Read:
 *     nodes      24 bytes a node, 1 to 4,096 of them
 *     root       the index of the node to lower
 *     mode       enum sewurogi_mode
 *     list       4 bytes a word, at most 8,192: the arguments of calls and the entries of maps
 *     names      4 bytes a parameter, at most 256: its symbol. Of two with one symbol the last counts
 * Written:
 *     code       16 bytes an instruction
 *     constants  12 bytes a constant. Equal constants are put there once
 *     marks      4 bytes an argument of the calls that are met; the function's own notes
 *     result     32 bytes: the words of enum sewurogi_result
 *
 * The arrays that are written need not be cleared. Bytes past what is made stay as they were. A refusal with 9 to 18
 * leaves what was made so far. After 13, 14 or 16 the call can be made again with a longer array. A node that is named
 * more than once is lowered each time it is met, so that the code may be much longer than the rule.
 *
 * A `result` of fewer than 32 bytes gets the words that fit whole, from the first on; of a longer one, no byte past the
 * 32nd changes.
 */
void sewurogi_lower(const uint8_t *nodes, size_t nodes_length,
                    uint32_t root, uint32_t mode,
                    const uint8_t *list, size_t list_length,
                    const uint8_t *names, size_t names_length,
                    uint8_t *code, size_t code_length,
                    uint8_t *constants, size_t constants_length,
                    uint8_t *marks, size_t marks_length,
                    uint8_t *result, size_t result_length);

/*
 * Sets the offset of the jump at `index`, among the first `count` instructions of `code`. Returns 0; or 19, with
 * nothing changed, if `index` is not below `count`, if `code` does not hold `count` instructions, or if the instruction
 * is none of 41 to 53. No word but the offset changes.
 */
uint32_t sewurogi_patch_jump(uint8_t *code, size_t code_length, uint32_t count, uint32_t index, uint32_t offset);

#ifdef __cplusplus
}
#endif

#endif
