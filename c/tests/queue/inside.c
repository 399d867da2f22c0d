/* By the queue's own memory, which no program may read or write. ERR_WORN_OUT, after 2^40 freezes, and ERR_IN_USE, where somebody
 * else has a share of the queue: no use of handles leads there, or none in a day, so the counts are written here. And that
 * a call counts on the slot that it is given, which no answer tells. */
#include "freeze_queue.h"

#include "../inside.h"
#include "in_a_mode.h"

enum { ROUNDS = 12345 };

static const freeze_queue_limits limits = {.hardware = 8, .max = 3, .chunk = 0, .physical = 1};
static freeze_queue freezer;
static freeze_queue_tag tags[3];
static freeze_queue_final last;
static uint32_t depth;

/* Frozen and thawed so often, and drained by a tag's leaving and by the freeze in turn. */
static void freeze_so_often(int times)
{
    for (int i = 0; i < times; i++) {
        bool is_in = i % 2 == 0;
        if (is_in)
            IS(freeze_queue_try_enter(&tags[0], 0), OK);
        TELLS(freeze_queue_start_freeze(&freezer, &depth), is_in ? FREEZE_QUEUE_OK : FREEZE_QUEUE_DRAINED);
        if (is_in)
            IS(freeze_queue_leave(&tags[0], 0), LAST);
        IS(freeze_queue_thaw(&freezer, &depth), LIVE_AGAIN);
    }
}

/* A queue with a tag out, and the word that counts its freezes. */
static uint64_t *a_used_queue(void)
{
    IS(freeze_queue_new(&freezer, &limits, 1, 3), OK);
    IS(freeze_queue_next_tag(&freezer, &tags[0]), OK);
    freeze_so_often(ROUNDS);
    first_look(ROUNDS);
    freeze_so_often(10);
    look_again(ROUNDS + 10);
    return the_word("freezes");
}

/* A queue that may not be frozen any more works on, and stays live; it may be ended while it is frozen. */
static void worn_out(void)
{
    uint64_t *kills = a_used_queue();
    last.kills = 0;
    *kills = ((uint64_t)1 << 40) - 1;
    IS(freeze_queue_start_freeze(&freezer, &depth), DRAINED); /* the last */
    IS(freeze_queue_start_freeze(&freezer, &depth), DRAINED); /* which another one may nest in */
    IS(freeze_queue_thaw(&freezer, &depth), OK);
    IS(freeze_queue_thaw(&freezer, &depth), LIVE_AGAIN);
    depth = 7;
    IS(freeze_queue_start_freeze(&freezer, &depth), ERR_WORN_OUT);
    TELLS(depth, 7);
    IS(freeze_queue_depth(&freezer, &depth), OK);
    TELLS(depth, 0);
    TELLS(freeze_queue_poll_drained(&freezer), false);
    IS(freeze_queue_try_enter(&tags[0], 0), OK);
    IS(freeze_queue_remove(&freezer, &last), ERR_TAGS_OUT);
    IS(freeze_queue_leave(&tags[0], 0), OK);
    IS(freeze_queue_give_tag_back(&freezer, &tags[0]), OK);
    IS(freeze_queue_remove(&freezer, &last), ERR_WORN_OUT);
    TELLS(last.kills, 0); /* nothing is written */
    TELLS(freezer.is_open && freezer.at != NULL, true);
    IS(freeze_queue_next_tag(&freezer, &tags[0]), OK); /* as it was */
    IS(freeze_queue_try_enter(&tags[0], 0), OK);
    IS(freeze_queue_leave(&tags[0], 0), OK);
    IS(freeze_queue_give_tag_back(&freezer, &tags[0]), OK);
    first_look((uint64_t)1 << 40);
    *the_word("freezes") = ((uint64_t)1 << 40) - 1; /* in the box that it has now */
    IS(freeze_queue_start_freeze(&freezer, &depth), DRAINED);
    IS(freeze_queue_remove(&freezer, &last), OK);
    TELLS(last.dead && last.kills == (uint64_t)1 << 40, true);
    TELLS(last.releases, ROUNDS + 10 + 2);
    TELLS(blocks_now(), 0);
}

/* What is refused as worn out is put back in new memory: where there is none it is gone. */
static void worn_out_without_memory(void)
{
    for (long allow = 0; allow < 2; allow++) {
        *a_used_queue() = (uint64_t)1 << 40;
        IS(freeze_queue_give_tag_back(&freezer, &tags[0]), OK);
        last.kills = 0;
        allowed = allow;
        IS(freeze_queue_remove(&freezer, &last), ERR_NO_MEMORY);
        TELLS(allowed, 0);
        allowed = -1;
        TELLS(last.kills, 0);
        TELLS(freezer.is_open || freezer.at != NULL, false);
        TELLS(blocks_now(), 0);
    }
}

static void gives(int t) { IS(freeze_queue_next_tag(&freezer, &tags[t]), OK); }
static void takes_back(int t) { IS(freeze_queue_give_tag_back(&freezer, &tags[t]), OK); }

/* A queue with all tags back, and the word that counts its shares. */
static uint64_t *a_shared_queue(void)
{
    IS(freeze_queue_new(&freezer, &limits, 1, 3), OK);
    return word_of_shares(gives, takes_back);
}

static void in_use(void)
{
    uint64_t *shares = a_shared_queue();
    last.kills = 0;
    *shares = 2;
    IS(freeze_queue_remove(&freezer, &last), ERR_IN_USE);
    TELLS(last.kills, 0);
    TELLS(freezer.is_open && freezer.at != NULL, true);
    TELLS(*shares, 2);
    IS(freeze_queue_depth(&freezer, &depth), OK);
    TELLS(depth, 0); /* it isn't frozen by that */
    IS(freeze_queue_next_tag(&freezer, &tags[0]), OK);
    IS(freeze_queue_try_enter(&tags[0], 0), OK);
    IS(freeze_queue_leave(&tags[0], 0), OK);
    IS(freeze_queue_give_tag_back(&freezer, &tags[0]), OK);
    IS(freeze_queue_start_freeze(&freezer, &depth), DRAINED);
    IS(freeze_queue_remove(&freezer, &last), ERR_IN_USE);
    *shares = 1;
    IS(freeze_queue_remove(&freezer, &last), OK);
    TELLS(last.kills == 1 && last.releases == 1, true);
    TELLS(blocks_now(), 0);
    /* and where there is no memory for the handle the freezer is gone, and the other's share is left */
    shares = a_shared_queue();
    *shares = 2;
    last.kills = 0;
    allowed = 0;
    IS(freeze_queue_remove(&freezer, &last), ERR_NO_MEMORY);
    allowed = -1;
    TELLS(last.kills, 0);
    TELLS(freezer.is_open || freezer.at != NULL, false);
    TELLS(*shares, 1);
}

/* ---- Slots ---- */

enum { SLOTS = 4 };

static uint64_t seen[65536];   /* the words of all blocks, one after another */
static uint8_t changes[65536]; /* of each, a bit for each slot on which a call changed it */

/* Looks at all words, and notes those that aren't as they were. */
static void look_at_all(uint8_t note)
{
    size_t word = 0;
    for (int i = 0; i < BLOCKS; i++)
        for (size_t w = 0; blocks[i].at && w < blocks[i].words && word < 65536; w++, word++) {
            if (seen[word] != blocks[i].at[w])
                changes[word] |= note;
            seen[word] = blocks[i].at[w];
        }
}

/* The place of the one word that changed on this slot alone; none where there are more, or none. */
static size_t place_of(uint32_t slot)
{
    size_t place = 0;
    long found_there = 0;
    for (size_t word = 0; word < 65536; word++)
        if (changes[word] == 1 << slot) {
            place = word;
            found_there++;
        }
    TELLS(found_there, 1);
    return place;
}

/* Enters on one slot and leaves on another, for each pair, and notes by a slot what the entering changed, or the leaving. */
static void count_on_each(bool frozen_too, bool leaving)
{
    for (uint32_t slot = 0; slot < SLOTS; slot++) {
        uint32_t other = (slot + 1) % SLOTS, first = leaving ? other : slot, then = leaving ? slot : other;
        look_at_all(0);
        if (frozen_too)
            IS(freeze_queue_try_enter_frozen(&tags[0], first), OK);
        else
            IS(freeze_queue_try_enter(&tags[0], first), OK);
        look_at_all(leaving ? 0 : (uint8_t)(1 << slot));
        IS(freeze_queue_leave(&tags[0], then), OK);
        look_at_all(leaving ? (uint8_t)(1 << slot) : 0);
    }
}

/* Each slot has a word of its own, 128 bytes from the others, and each call changes that of the slot it is given. */
static void counts_on_the_slot_asked_for(void)
{
    size_t places[3][SLOTS];
    IS(freeze_queue_new(&freezer, &limits, SLOTS, 1), OK);
    IS(freeze_queue_next_tag(&freezer, &tags[0]), OK);
    for (int call = 0; call < 3; call++) { /* try_enter, try_enter_frozen, leave */
        memset(changes, 0, sizeof changes);
        count_on_each(call == 1, call == 2);
        for (uint32_t slot = 0; slot < SLOTS; slot++)
            places[call][slot] = place_of(slot);
    }
    for (uint32_t slot = 0; slot < SLOTS; slot++) {
        TELLS(places[0][slot] == places[1][slot] && places[0][slot] == places[2][slot], true);
        for (uint32_t other = 0; other < slot; other++)
            TELLS(places[0][slot] >= places[0][other] + 16 || places[0][slot] + 16 <= places[0][other], true);
    }
    IS(freeze_queue_give_tag_back(&freezer, &tags[0]), OK);
    IS(freeze_queue_remove(&freezer, &last), OK);
}

/* ---- Freed handles ---- */

/* A handle that is freed changes one word of what is left, which counts the queue's shares. So it neither enters nor leaves, and
 * no freeze, limit or mode of the queue is another. */
static void freed_handles(uint32_t mode, bool is_in, uint32_t freezes)
{
    IS(freeze_queue_new(&freezer, &limits, SLOTS, 3), OK);
    for (int t = 0; t < 3; t++)
        IS(freeze_queue_next_tag(&freezer, &tags[t]), OK);
    is_in_a_mode(&freezer, tags, SLOTS, mode, freezes, is_in);
    keep_all();
    freeze_queue_free_tag(&tags[0]);
    TELLS(words_changed(), 1);
    keep_all();
    freeze_queue_free(&freezer);
    TELLS(words_changed(), 1);
    freeze_queue_free_tag(&tags[1]);
    freeze_queue_free_tag(&tags[2]);
    TELLS(blocks_now(), 0);
}

/* A switch to the mode that the queue has changes no word: no slot is closed, and no count moves. */
static void the_same_mode_again(uint32_t mode, uint32_t freezes)
{
    IS(freeze_queue_new(&freezer, &limits, SLOTS, 1), OK);
    IS(freeze_queue_next_tag(&freezer, &tags[0]), OK);
    IS(freeze_queue_mode(&freezer, mode), OK);
    IS(freeze_queue_try_enter(&tags[0], 1), OK);
    for (uint32_t i = 0; i < freezes; i++)
        IS(freeze_queue_start_freeze(&freezer, &depth), OK);
    keep_all();
    IS(freeze_queue_mode(&freezer, mode), OK);
    TELLS(words_changed(), 0);
    freeze_queue_free_tag(&tags[0]);
    freeze_queue_free(&freezer);
}

int main(void)
{
    counts_on_the_slot_asked_for();
    for (uint32_t mode = 0; mode < 2; mode++)
        for (uint32_t freezes = 0; freezes < 3; freezes++) {
            the_same_mode_again(mode, freezes);
            freed_handles(mode, false, freezes);
            freed_handles(mode, true, freezes);
        }
    worn_out();
    worn_out_without_memory();
    in_use();
    printf("%s\n", failures ? "FAILED" : "refused");
    return failures != 0;
}
