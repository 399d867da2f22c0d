/* Sizes and offsets of the structs, and the order of arguments: each call that takes several numbers is given another in
 * each place, and each field that is written is read. No contract of the library has these. */
#include "freeze_queue.h"
#include "../is.h"

#include <stddef.h>
#include <stdio.h>
#include <string.h>

#define IS(value, want) is(#value, value, want, __LINE__)

static const freeze_queue_limits first = {.hardware = 64, .max = 32, .chunk = 24, .physical = 2};

static void sizes(void)
{
    HANDLE_IS_LAID_OUT(freeze_queue);
    HANDLE_IS_LAID_OUT(freeze_queue_tag);
    IS(offsetof(freeze_queue_tag, lent_slots), 4);
    IS(sizeof(freeze_queue_limits), 16);
    IS(offsetof(freeze_queue_limits, hardware), 0);
    IS(offsetof(freeze_queue_limits, max), 4);
    IS(offsetof(freeze_queue_limits, chunk), 8);
    IS(offsetof(freeze_queue_limits, physical), 12);
    FINAL_IS_LAID_OUT(freeze_queue_final, 40);
    IS(offsetof(freeze_queue_final, limits), 24);
}

/* What a call writes lies between bytes that it leaves alone. */
static void are(const freeze_queue_limits *told, uint32_t max, uint32_t chunk, uint32_t physical, int line)
{
    is("hardware", told->hardware, 64, line);
    is("max", told->max, max, line);
    is("chunk", told->chunk, chunk, line);
    is("physical", told->physical, physical, line);
}

struct room { uint64_t before; freeze_queue_limits limits; uint64_t after; };

static void is_whole(const struct room *room, int line)
{
    is("before", room->before, 0xa5a5a5a5a5a5a5a5u, line);
    is("after", room->after, 0xa5a5a5a5a5a5a5a5u, line);
}

static void limits(freeze_queue *freezer, freeze_queue_tag *tag)
{
    struct room room;
    uint32_t depth = 0;
    memset(&room, 0xa5, sizeof room);
    IS(freeze_queue_try_enter(tag, 2), FREEZE_QUEUE_OK);
    IS(freeze_queue_limits_of(tag, &room.limits), FREEZE_QUEUE_OK);
    are(&room.limits, 32, 24, 2, __LINE__);
    is_whole(&room, __LINE__);
    IS(freeze_queue_start_freeze(freezer, &depth), FREEZE_QUEUE_OK);
    IS(freeze_queue_thaw(freezer, &depth), FREEZE_QUEUE_LIVE_AGAIN);
    IS(freeze_queue_leave(tag, 1), FREEZE_QUEUE_OK);
    IS(freeze_queue_start_freeze(freezer, &depth), FREEZE_QUEUE_DRAINED);
    IS(freeze_queue_set(freezer, &(freeze_queue_limits){.hardware = 64, .max = 16, .chunk = 40, .physical = 8}), FREEZE_QUEUE_OK);
    memset(&room, 0xa5, sizeof room);
    IS(freeze_queue_limits_in_force(freezer, &room.limits), FREEZE_QUEUE_OK);
    are(&room.limits, 16, 40, 8, __LINE__);
    is_whole(&room, __LINE__);
}

/* Each limit, the start and the count have a part in these. */
static void pieces(void)
{
    uint32_t piece[3] = {7, 7, 7};
    IS(freeze_queue_first_piece(&first, 20, 100, &piece[1]), FREEZE_QUEUE_OK);
    IS(piece[1], 4); /* to the chunk's end at 24 */
    IS(freeze_queue_first_piece(&first, 24, 20, &piece[1]), FREEZE_QUEUE_OK);
    IS(piece[1], 20); /* all */
    IS(freeze_queue_first_piece(&(freeze_queue_limits){64, 10, 0, 4}, 5, 100, &piece[1]), FREEZE_QUEUE_OK);
    IS(piece[1], 7); /* to the block's end at 12, of 10 sectors */
    IS(freeze_queue_first_piece(&(freeze_queue_limits){64, 0, 0, 1}, 0, 100, &piece[1]), FREEZE_QUEUE_OK);
    IS(piece[1], 64);
    /* the greatest of all: from 2^33 - 1, which is 1 past a chunk's end (2^16 is 1 more than 65,535), 65,534 sectors are
     * allowed, and blocks end after 1 and 32,769 of them */
    freeze_queue_limits most = {65535, 65535, 65535, 32768};
    IS(freeze_queue_first_piece(&most, ((uint64_t)1 << 33) - 1, UINT32_MAX, &piece[1]), FREEZE_QUEUE_OK);
    IS(piece[1], 32769);
    most.physical = 1;
    IS(freeze_queue_first_piece(&most, ((uint64_t)1 << 33) - 1, UINT32_MAX, &piece[1]), FREEZE_QUEUE_OK);
    IS(piece[1], 65534);
    IS(freeze_queue_first_piece(&(freeze_queue_limits){1, 1, 1, 1}, 0, UINT32_MAX, &piece[1]), FREEZE_QUEUE_OK);
    IS(piece[1], 1);
    IS(piece[0], 7);
    IS(piece[2], 7);
}

int main(void)
{
    freeze_queue freezer = {0};
    freeze_queue_tag tag[3] = {{0}, {0}, {0}};
    struct { uint64_t before; freeze_queue_final last; uint64_t after; } room;
    sizes();
    pieces();
    /* three slots, two tags */
    IS(freeze_queue_new(&freezer, &first, 3, 2), FREEZE_QUEUE_OK);
    IS(freezer.is_open, 1);
    IS(freezer.at != NULL, 1);
    IS(freeze_queue_next_tag(&freezer, &tag[0]), FREEZE_QUEUE_OK);
    IS(freeze_queue_next_tag(&freezer, &tag[1]), FREEZE_QUEUE_OK);
    IS(freeze_queue_next_tag(&freezer, &tag[2]), FREEZE_QUEUE_ERR_NO_TAG);
    IS(tag[0].is_open, 1);
    IS(tag[0].at != NULL, 1);
    IS(tag[2].is_open, 0);
    IS(freeze_queue_try_enter(&tag[1], 3), FREEZE_QUEUE_ERR_BAD_SLOT);
    limits(&freezer, &tag[0]);
    IS(tag[0].lent_slots, 0); /* between the flag and the pointer, where Rust stores nothing */
    IS(freeze_queue_give_tag_back(&freezer, &tag[0]), FREEZE_QUEUE_OK);
    IS(freeze_queue_give_tag_back(&freezer, &tag[1]), FREEZE_QUEUE_OK);
    IS(tag[1].is_open, 0);
    IS(tag[1].at == NULL, 1);
    memset(&room, 0xa5, sizeof room);
    IS(freeze_queue_remove(&freezer, &room.last), FREEZE_QUEUE_OK);
    IS(room.last.dead, 1);
    IS(room.last.kills, 2);
    IS(room.last.releases, 1);
    are(&room.last.limits, 16, 40, 8, __LINE__);
    IS(room.before, 0xa5a5a5a5a5a5a5a5u);
    IS(room.after, 0xa5a5a5a5a5a5a5a5u);
    IS(freezer.is_open, 0);
    IS(freezer.at == NULL, 1);
    return failures != 0;
}
