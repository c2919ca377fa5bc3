/* Plans that are told one by one. */
#include "told.h"
#include "check.h"
#include "inputs.h"

#include "../include/mettulos.h"

#include <string.h>

void draft_told(struct draft *draft, const struct told *one)
{
    memset(draft, 0, sizeof *draft);
    draft->edition = draft->p = draft->q = draft->supply_count = 1;
    draft->supplies[0] = one->supply;
    draft->node_count = one->node_count;
    for (uint8_t i = 0; i < one->node_count; i++) {
        draft->nodes[i] = one->nodes[i];
        draft->nodes[i].name_length = 1;
        draft->nodes[i].name[0] = (uint8_t)('a' + i);
    }
}

void check_told(const struct draft *draft, uint32_t number, uint32_t place, uint32_t *plan)
{
    static uint8_t bytes[MOST_BYTES];
    uint64_t state[METTULOS_STATE];
    uint64_t refused = check_read(bytes, draft_bytes(draft, bytes), plan, METTULOS_PLAN);
    if (METTULOS_NUMBER(refused) != number) check_fail("a plan that is told is not answered by the number that it should be");
    if (number > 0 && METTULOS_PLACE(refused) != place) check_fail("a plan that is told is refused at another place");
    value_of(draft, plan);
    refused = check_fresh(plan, METTULOS_PLAN, state, METTULOS_STATE);
    if (METTULOS_NUMBER(refused) != (number > 0 ? 16 : 0)) check_fail("a value is fit where the file is refused, or the other way round");
}
