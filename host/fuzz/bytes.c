/* Bytes and two-byte fields. */
#include "fuzz.h"

#include <string.h>

void add(struct bytes *to, const void *data, size_t length)
{
    if (length <= MOST_LENGTH - to->length) {
        memcpy(to->data + to->length, data, length);
        to->length += length;
    }
}

void add_text(struct bytes *to, const char *text)
{
    add(to, text, strlen(text));
}

void add_byte(struct bytes *to, uint8_t byte)
{
    add(to, &byte, 1);
}

void add_random(struct bytes *to, size_t length, size_t values)
{
    if (length > MOST_LENGTH - to->length) {
        length = MOST_LENGTH - to->length;
    }
    uint64_t word = 0;
    for (size_t k = 0; k < length; k++) {
        word = k % 8 == 0 ? random_word() : word >> 8;
        to->data[to->length + k] = (uint8_t)(word % 256 % values);
    }
    to->length += length;
}

void add_field(struct bytes *to, uint64_t value)
{
    add_byte(to, (uint8_t)value);
    add_byte(to, (uint8_t)(value >> 8));
}

void copy_bytes(struct bytes *to, const void *data, size_t length)
{
    to->length = 0;
    add(to, data, length);
}

void resize(struct bytes *bytes, size_t length)
{
    if (length > MOST_LENGTH) {
        length = MOST_LENGTH;
    }
    if (length > bytes->length) {
        memset(bytes->data + bytes->length, 0, length - bytes->length);
    }
    bytes->length = length;
}

unsigned field(const uint8_t *area, size_t number)
{
    return area[2 * number] + 256u * area[2 * number + 1];
}

void set_field(uint8_t *area, size_t number, uint64_t value)
{
    area[2 * number] = (uint8_t)value;
    area[2 * number + 1] = (uint8_t)(value >> 8);
}

bool are_zero(const uint8_t *data, size_t length)
{
    return length == 0 || (data[0] == 0 && memcmp(data, data + 1, length - 1) == 0);
}
