/* Every call whose answer must be looked at, with none looked at: unused.sh expects a warning at each. */
#include "lipvezor.h"

void unused(const lipvezor_block *block, const lipvezor_codeword *codeword, const lipvezor_buffers *buffers, const lipvezor_work *work,
            uint8_t *p, size_t length, const size_t *lengths, lipvezor_parts *parts, lipvezor_taken *taken, lipvezor_report *report)
{
    lipvezor_pack(block, p, length, lengths, 1, p, length);
    lipvezor_encode(block, codeword);
    lipvezor_show(block, codeword, 1, p, length);
    lipvezor_write(block, 1, p, length, p, length);
    lipvezor_read(p, length, parts);
    lipvezor_open(block, buffers);
    lipvezor_take(block, buffers, p, length, taken);
    lipvezor_close(block, buffers, work, report);
}
