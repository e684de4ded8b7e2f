// The header in C++: cases 1 and 2 of document 01, with none as a session.
#include "head.h"

int main()
{
    head_session none{};
    uint64_t words[HEAD_WORDS]{};
    if (head_quorum(0x001f, 1, 0x001f, 0x0007) != HEAD_QUORUM_YES)
        return 1;
    if (head_quorum(0x001f, 1, 0x001f, 0x0003) != HEAD_QUORUM_NO)
        return 1;
    if (head_start(words, HEAD_WORDS, 4, 0x001f, 1) != HEAD_DONE)
        return 1;
    head_end entered = head_enter(words, HEAD_WORDS, none, 1, 0x0010, 1);
    return entered.session.stage == HEAD_STAGE_UNDECIDED ? 0 : 1;
}
