/*
 * A probe that joins a capture and leaves again. The capture has 512 samples of
 * 4 channels, which lie together sample by sample; it is copied channel by
 * channel into the operand that is chosen. The probe gives each sample one
 * number, which is read for every channel.
 *
 * The session keeps ranks, weights, costs and plan up to date: what the table
 * shows is at any time what planning the present layout afresh would give.
 */
#include <inttypes.h>
#include <stdio.h>
#include <string.h>

#include "gougelily.h"

static const uint64_t extents[2] = {512, 4}; /* samples, channels */
static const uint64_t sizes[2] = {8, 8};
static const int64_t strides[4] = {
    1, 512, /* operand 0: channel by channel */
    4, 1, /* operand 1: sample by sample */
};
static const int64_t probe[2] = {1, 0}; /* one number per sample */

/* The session as a table: a row for each operand, the weights, and the plan with its costs. */
static void show(const char *what, const gougelily_session_t *session)
{
    printf("%s\noperand  size  strides      ranks\n", what);
    for (size_t k = 0; k < session->operands; k++)
        printf("%zu%-7s %4" PRIu64 "  %5" PRId64 " %5" PRId64 "  %5" PRIu64 " %2" PRIu64 "\n", k,
               session->purpose != GOUGELILY_POINTWISE && k == session->chosen ? " chosen" : "", session->sizes[k],
               session->strides[k * session->rank], session->strides[k * session->rank + 1],
               session->ranks[k * GOUGELILY_MAX_RANK], session->ranks[k * GOUGELILY_MAX_RANK + 1]);
    printf("weights  %" PRIu64 " %" PRIu64 "\n", session->weights[0], session->weights[1]);
    for (size_t i = 0; i < session->plan.rank; i++)
        printf("plan's axis %zu: extent %" PRIu64 ", block %" PRIu64 ", cost %" PRIu64 "\n", i, session->plan.extents[i],
               session->plan.blocks[i], session->costs[i]);
    printf("\n");
}

/* What a call answered, where it is a refusal. */
static int refused(const char *what, int64_t answer)
{
    if (answer < 0)
        printf("%s is refused with %" PRId64 ", %s\n", what, -answer, gougelily_refusal_text(answer));
    return answer < 0;
}

int main(void)
{
    const gougelily_layout_t layout = {extents, 2, sizes, 2, strides, 4, GOUGELILY_POINTWISE_INTO, 0};
    const gougelily_machine_t machine = GOUGELILY_FIXED_MACHINE;
    static gougelily_session_t session, before; /* 15 KB each */

    if (refused("the beginning", gougelily_session_begin(&layout, &machine, &session)))
        return 1;
    show("the capture", &session);
    before = session;

    if (refused("joining", gougelily_session_join(&session, 4, probe, 2)))
        return 1;
    show("the probe joins", &session);

    if (refused("leaving", gougelily_session_leave(&session, 2)))
        return 1;
    printf("the probe leaves: every byte is as it was before, %s\n", memcmp(&session, &before, sizeof session) ? "no" : "yes");

    /* the operand that is copied into moves with its data; where it leaves itself there is none */
    if (refused("leaving", gougelily_session_leave(&session, 0)))
        return 1;
    show("\nthe copy leaves", &session);

    refused("dropping the only one left", gougelily_session_leave(&session, 0));
    while (session.operands < GOUGELILY_MAX_OPERANDS)
        if (refused("joining", gougelily_session_join(&session, 4, probe, 2)))
            return 1;
    refused("a ninth probe", gougelily_session_join(&session, 4, probe, 2));
    session.weights[1]++;
    refused("a session that was tampered with", gougelily_session_join(&session, 4, probe, 2));
    return 0;
}
