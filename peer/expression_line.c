#include "expression_line.h"

#include "lines.h"
#include "reader.h"

struct refusal read_expression_line(FILE *input, struct rooms rooms, struct forest *forest,
                                    struct automaton *automaton)
{
    struct line line;
    read_line(input, &line);
    if (line.found == LONG_LINE)
        return (struct refusal){ TEXT_TOO_LONG, 0 };
    /* "no line is the empty text in both programs": then the length is 0 */
    struct tree *root;
    struct refusal refusal = read_text(forest, line.bytes, line.length, &root);
    if (refusal.number != SUCCESS)
        return refusal;
    return build(forest, root, rooms, automaton);
}
