#include "tools.h"

#include "tecuhualma.h"

const struct tool TO_WIDE = {.on_one = sheet_to_wide};
const struct tool TO_NARROW = {.on_one = sheet_to_narrow};
const struct tool CORRECT = {.on_two = correct_sheet};

size_t input_count(const struct tool *tool)
{
    return tool->on_two != NULL ? 2 : 1;
}

uint64_t call_tool(const struct tool *tool, const struct call *call)
{
    struct bytes first = call->inputs[0], second = call->inputs[1];
    struct bytes output = call->output, result = call->result;
    if (tool->on_two != NULL)
        return tool->on_two(first.at, first.length, second.at, second.length, output.at,
                            output.length, result.at, result.length);
    return tool->on_one(first.at, first.length, output.at, output.length, result.at,
                        result.length);
}
