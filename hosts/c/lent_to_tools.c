/*
 * What the header says of the buffers that are lent to the tools, tried: exact, long,
 * short and impossible lengths, no buffer at all, inputs with a fault, and in which
 * order these are told. Every byte that a call leaves is looked at, and all is tried
 * over different dirt, which must not matter.
 */
#include "tool_trials.h"

int main(void)
{
    static const uint8_t DIRTS[] = {0xD1, 0x00, 0xFF};
    for (size_t index = 0; index < sizeof DIRTS; index++) {
        dirt = DIRTS[index];
        try_converters();
        try_correct_sheet();
    }
    return all_demanded("lent_to_tools");
}
