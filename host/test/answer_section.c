/*
 * answer_section: sections of commands' texts for the comparison run; answer.h has how it talks.
 *
 *   question                                        reply
 *   length (2), text, count (2), numbers            for each number esk_part, and where esk_part_of has it (8): bytes
 *                                                   from the text's first one on, or the greatest number for NULL
 */
#include "answer.h"

static void give_section(uint8_t of, string text)
{
    esk_part part = esk_section(of, text.bytes, text.length);
    const uint8_t *bytes = esk_part_of(text.bytes, part);
    uint64_t where = bytes == NULL ? UINT64_MAX : (uint64_t)(bytes - text.bytes);
    give(&part, sizeof part);
    give(&where, sizeof where);
}

static const uint8_t *question(const uint8_t *q)
{
    string text = string_at(q), numbers = string_at(text.end);
    for (size_t i = 0; i < numbers.length; i++)
        give_section(numbers.bytes[i], text);
    return numbers.end;
}
