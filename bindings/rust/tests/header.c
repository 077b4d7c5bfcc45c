/*
 * The prototypes of sewurogi.h against the archive: each parameter has a value that tells it from the others, and each
 * array is compared byte by byte. Then what a caller may get wrong: null pointers with length 0, short and odd lengths.
 * Ends with status 0, or with the first line that does not hold. C99, and C++ too.
 */
#include <stdio.h>
#include <stdlib.h>
#include <string.h>

#include "sewurogi.h"

#define CHECK(fact) check(fact, __LINE__, #fact)

static void check(int fact, int line, const char *text)
{
    if (!fact) {
        fprintf(stderr, "line %d does not hold: %s\n", line, text);
        exit(1);
    }
}

/* x(y) < 1, with x = symbol 7 and y = symbol 8. */
static const uint32_t nodes[][6] = {
    {SEWUROGI_NODE_IDENTIFIER, 7, 0, 0, 0, 1},
    {SEWUROGI_NODE_IDENTIFIER, 8, 0, 0, 2, 3},
    {SEWUROGI_NODE_FUNCTION_CALL, 0, 0, 1, 0, 4},
    {SEWUROGI_NODE_NUMBER, 0, 1072693248, 0, 7, 8},
    {SEWUROGI_NODE_BINARY, SEWUROGI_BINARY_LESS, 2, 3, 0, 8},
};
static const uint32_t list[] = {1};
static const uint32_t names[] = {7, 8};

static const uint32_t made_code[] = {
    SEWUROGI_INSTRUCTION_MOVE, 3, 1, 0,
    SEWUROGI_INSTRUCTION_CALL, 2, 0, 1,
    SEWUROGI_INSTRUCTION_JUMP_IF_LESS_EQUAL_KR, 2, 0, 0,
};
static const uint32_t made_constants[] = {SEWUROGI_CONSTANT_NUMBER, 0, 1072693248};
static const uint32_t made_marks[] = {0};
static const uint32_t made_result[] = {SEWUROGI_ACCEPTED, 2, 0, 0, 3, 1, 3, 2};

/* An array of 100 bytes, each of them `byte`: `length` of it are handed over, from an odd address on. */
enum { BEFORE = 3, ALL = 100 };

typedef struct {
    uint8_t bytes[ALL];
    uint8_t byte;
    size_t length;
} Place;

static void clear(Place *place, uint8_t byte, size_t length)
{
    memset(place->bytes, byte, ALL);
    place->byte = byte;
    place->length = length;
}

static uint8_t *of(Place *place)
{
    return place->bytes + BEFORE;
}

/* Whether the place begins with these bytes, and every other byte of it is as it was. */
static int holds(const Place *place, const void *bytes, size_t size)
{
    size_t i;

    for (i = 0; i < BEFORE; i++)
        if (place->bytes[i] != place->byte)
            return 0;
    for (i = BEFORE + size; i < ALL; i++)
        if (place->bytes[i] != place->byte)
            return 0;
    return size == 0 || memcmp(place->bytes + BEFORE, bytes, size) == 0;
}

static Place code, constants, marks, result;

static void clear_all(size_t code_length, size_t constants_length, size_t marks_length, size_t result_length)
{
    clear(&code, 0xA1, code_length);
    clear(&constants, 0xA2, constants_length);
    clear(&marks, 0xA3, marks_length);
    clear(&result, 0xA4, result_length);
}

static void lower(uint32_t root, uint32_t mode)
{
    sewurogi_lower((const uint8_t *)nodes, sizeof nodes, root, mode, (const uint8_t *)list, sizeof list,
                   (const uint8_t *)names, sizeof names, of(&code), code.length, of(&constants), constants.length,
                   of(&marks), marks.length, of(&result), result.length);
}

static void test_lower(void)
{
    clear_all(64, 24, 8, 32);
    lower(4, SEWUROGI_MODE_JUMP_IF_FALSE);
    CHECK(holds(&code, made_code, sizeof made_code));
    CHECK(holds(&constants, made_constants, sizeof made_constants));
    CHECK(holds(&marks, made_marks, sizeof made_marks));
    CHECK(holds(&result, made_result, sizeof made_result));
}

static void test_patch_jump(void)
{
    uint32_t patched[12];

    memcpy(patched, made_code, sizeof patched);
    patched[11] = 5;
    clear(&code, 0xA1, 51);
    memcpy(of(&code), made_code, sizeof made_code);
    CHECK(sewurogi_patch_jump(of(&code), code.length, 3, 2, 5) == SEWUROGI_ACCEPTED);
    CHECK(holds(&code, patched, sizeof patched));
    CHECK(sewurogi_patch_jump(of(&code), code.length, 2, 2, 6) == SEWUROGI_REFUSED_JUMP);
    CHECK(sewurogi_patch_jump(of(&code), code.length, 3, 1, 6) == SEWUROGI_REFUSED_JUMP);
    CHECK(sewurogi_patch_jump(of(&code), code.length, 4, 2, 6) == SEWUROGI_REFUSED_JUMP);
    CHECK(sewurogi_patch_jump(of(&code), 47, 3, 2, 6) == SEWUROGI_REFUSED_JUMP);
    CHECK(sewurogi_patch_jump(NULL, 0, 0, 0, 6) == SEWUROGI_REFUSED_JUMP);
    CHECK(sewurogi_patch_jump(NULL, 0, 1, 0, 6) == SEWUROGI_REFUSED_JUMP);
    CHECK(holds(&code, patched, sizeof patched));
}

/* A short place gets the words that fit whole. */
static void test_result_length(void)
{
    size_t length;

    for (length = 0; length <= 64; length++) {
        clear_all(64, 24, 8, length);
        lower(4, SEWUROGI_MODE_JUMP_IF_FALSE);
        CHECK(holds(&result, made_result, length < 32 ? length / 4 * 4 : 32));
        CHECK(holds(&code, made_code, sizeof made_code));
    }
}

static void test_short(void)
{
    uint32_t numbers[8] = {SEWUROGI_REFUSED_CODE, 0, 0, 0, 2, 1, 0, 0};
    uint32_t made_so_far[8];

    /* The argument's register is moved past the frame at the end only. */
    memcpy(made_so_far, made_code, sizeof made_so_far);
    made_so_far[1] = 0;
    clear_all(47, 24, 8, 32);
    lower(4, SEWUROGI_MODE_JUMP_IF_FALSE);
    CHECK(holds(&result, numbers, sizeof numbers));
    CHECK(holds(&code, made_so_far, sizeof made_so_far));

    numbers[0] = SEWUROGI_REFUSED_CONSTANTS, numbers[5] = 0;
    clear_all(64, 11, 8, 32);
    lower(4, SEWUROGI_MODE_JUMP_IF_FALSE);
    CHECK(holds(&result, numbers, sizeof numbers));
    CHECK(holds(&constants, NULL, 0));

    numbers[0] = SEWUROGI_REFUSED_MARKS, numbers[4] = 1;
    clear_all(64, 24, 3, 32);
    lower(4, SEWUROGI_MODE_JUMP_IF_FALSE);
    CHECK(holds(&result, numbers, sizeof numbers));
    CHECK(holds(&marks, NULL, 0));
}

/* A null pointer with length 0 is an empty array, whichever it is. */
static void test_null(void)
{
    /* nil alone */
    static const uint32_t nil[6] = {SEWUROGI_NODE_NIL, 0, 0, 0, 11, 12};
    uint32_t numbers[8] = {SEWUROGI_REFUSED_SIZE, 0, 0, 0, 0, 0, 0, 0};

    clear_all(64, 24, 8, 32);
    sewurogi_lower(NULL, 0, 0, 0, NULL, 0, NULL, 0, NULL, 0, NULL, 0, NULL, 0, NULL, 0);
    sewurogi_lower(NULL, 0, 0, 0, NULL, 0, NULL, 0, NULL, 0, NULL, 0, NULL, 0, of(&result), 32);
    CHECK(holds(&result, numbers, sizeof numbers));

    numbers[0] = SEWUROGI_REFUSED_CONSTANTS;
    sewurogi_lower((const uint8_t *)nil, sizeof nil, 0, 0, NULL, 0, NULL, 0, NULL, 0, NULL, 0, NULL, 0, of(&result), 32);
    CHECK(holds(&result, numbers, sizeof numbers));

    numbers[0] = SEWUROGI_REFUSED_CODE, numbers[5] = 1;
    sewurogi_lower((const uint8_t *)nil, sizeof nil, 0, 0, NULL, 0, NULL, 0, NULL, 0, of(&constants), 12, NULL, 0,
                   of(&result), 32);
    CHECK(holds(&result, numbers, sizeof numbers));

    numbers[0] = SEWUROGI_ACCEPTED, numbers[4] = 2, numbers[6] = 1;
    sewurogi_lower((const uint8_t *)nil, sizeof nil, 0, 0, NULL, 0, NULL, 0, of(&code), 32, of(&constants), 12, NULL, 0,
                   of(&result), 32);
    CHECK(holds(&result, numbers, sizeof numbers));
}

/* Lengths that are no whole records, modes and roots that there are not. */
static void test_refused(void)
{
    uint32_t numbers[8] = {SEWUROGI_REFUSED_SIZE, 0, 0, 0, 0, 0, 0, 0};

    clear_all(64, 24, 8, 32);
    sewurogi_lower((const uint8_t *)nodes, sizeof nodes - 1, 4, 0, (const uint8_t *)list, sizeof list,
                   (const uint8_t *)names, sizeof names, of(&code), 64, of(&constants), 24, of(&marks), 8, of(&result),
                   32);
    CHECK(holds(&result, numbers, sizeof numbers));
    sewurogi_lower((const uint8_t *)nodes, sizeof nodes, 4, 0, (const uint8_t *)list, sizeof list - 1,
                   (const uint8_t *)names, sizeof names, of(&code), 64, of(&constants), 24, of(&marks), 8, of(&result),
                   32);
    CHECK(holds(&result, numbers, sizeof numbers));
    sewurogi_lower((const uint8_t *)nodes, sizeof nodes, 4, 0, (const uint8_t *)list, sizeof list,
                   (const uint8_t *)names, sizeof names - 1, of(&code), 64, of(&constants), 24, of(&marks), 8,
                   of(&result), 32);
    CHECK(holds(&result, numbers, sizeof numbers));
    numbers[0] = SEWUROGI_REFUSED_ROOT;
    lower(5, SEWUROGI_MODE_VALUE);
    CHECK(holds(&result, numbers, sizeof numbers));
    lower(4, 3);
    CHECK(holds(&result, numbers, sizeof numbers));
    lower(UINT32_MAX, UINT32_MAX);
    CHECK(holds(&result, numbers, sizeof numbers));
    CHECK(holds(&code, NULL, 0));
    CHECK(holds(&constants, NULL, 0));
    CHECK(holds(&marks, NULL, 0));
}

int main(void)
{
    test_lower();
    test_patch_jump();
    test_result_length();
    test_short();
    test_null();
    test_refused();
    return 0;
}
