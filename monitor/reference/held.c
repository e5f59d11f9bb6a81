/* The chains that a balloon holds, in plain C. */
#include "reference.h"

/* Whether its chains are held once they were taken. */
bool holds_chains(const VbDevice *device, uint32_t kind)
{
    return kind == VB_STATISTICS || (kind == VB_DEFLATE && device->settings.holds_deflates);
}

/* 1 more than the head of the chain that is held; NULL where none ever is. */
uint32_t *held_of(VbHeld *held, uint32_t kind)
{
    return kind == VB_STATISTICS ? &held->statistics : kind == VB_DEFLATE ? &held->deflate : NULL;
}

bool is_held(const VbBalloon *balloon, uint32_t kind)
{
    VbHeld held = balloon->held;
    const uint32_t *it = held_of(&held, kind);
    return it && *it;
}

uint32_t vb_held(const VbBalloon *balloon, uint32_t kind, uint32_t *pages)
{
    *pages = 0;
    if (kind >= VB_NO_KIND)
        return VB_NO_QUEUE;
    if (!is_held(balloon, kind))
        return VB_NOTHING;
    *pages = kind == VB_DEFLATE ? balloon->held.pages : 0;
    return VB_OK;
}

uint32_t vb_forget_held(VbBalloon *balloon, uint32_t kind)
{
    uint32_t *held = held_of(&balloon->held, kind);
    if (kind >= VB_NO_KIND)
        return VB_NO_QUEUE;
    bool was = is_held(balloon, kind);
    if (held)
        *held = 0;
    if (kind == VB_DEFLATE)
        balloon->held.pages = 0;
    return was ? VB_OK : VB_NOTHING;
}
