/*
 * The layout of head.h's structs: of each its size and alignment, of each field
 * its offset and size. outside/head/examples/layout.rs prints that of the
 * structs that Rust declares.
 */
#include "head.h"

#include <stdio.h>

#define LAID_OUT(type) \
    printf("%s %zu %zu\n", #type, sizeof(struct type), _Alignof(struct type))
#define FIELD(type, field)                                                    \
    printf("%s.%s %zu %zu\n", #type, #field, offsetof(struct type, field),    \
           sizeof(((struct type *)0)->field))

int main(void)
{
    LAID_OUT(head_state);
    FIELD(head_state, number);
    FIELD(head_state, primary);
    FIELD(head_state, formed);
    FIELD(head_state, count);
    FIELD(head_state, places);
    LAID_OUT(head_session);
    FIELD(head_session, stage);
    FIELD(head_session, view);
    FIELD(head_session, members);
    FIELD(head_session, states);
    FIELD(head_session, attempts);
    FIELD(head_session, held);
    LAID_OUT(head_end);
    FIELD(head_end, session);
    FIELD(head_end, code);
    LAID_OUT(head_line);
    FIELD(head_line, session);
    FIELD(head_line, length);
    FIELD(head_line, code);
    LAID_OUT(head_line_read);
    FIELD(head_line_read, kind);
    FIELD(head_line_read, rule);
    FIELD(head_line_read, sender);
    FIELD(head_line_read, view);
    FIELD(head_line_read, left);
    FIELD(head_line_read, state);
    return 0;
}
