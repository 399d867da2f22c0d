/* All orders of two to four threads at a pool of tags (orders.h): tags that are waited for, and a pool that ends or is emptied,
 * whose memory is gone then. Prints for each play how many orders and states it went through. */
#include "orders_queue.h"
#include "takes_waiting.h"

static freeze_queue_pool pool;

/* A pool of so many tags. */
static void fill(uint32_t count)
{
    begin_at(0);
    for (int i = 0; i < 3; i++)
        if (freeze_queue_give_tag_back(&freezer, &tags[i]))
            abort();
    memset(&pool, 0, sizeof pool);
    if (freeze_queue_pool_fill(&pool, &waits, count))
        abort();
    for (uint32_t i = 0; i <= IN_POOL->last; i++)
        watch(&IN_POOL->words[i].marks, sizeof IN_POOL->words[i].marks);
    for (uint32_t i = 0; i < count; i++)
        watch(&IN_POOL->tags[i].marks, sizeof IN_POOL->tags[i].marks);
    watch(&IN_POOL->waiting, sizeof IN_POOL->waiting);
    watch(&IN_POOL->is_ending, sizeof IN_POOL->is_ending);
    watch(&IN_POOL->count, sizeof IN_POOL->count);
}
static void one_tag(void) { fill(1); }
static void two_tags(void) { fill(2); }

/* Two tags whose marks share a word, and a third one, which is out, with a word of its own. */
static freeze_queue_tag *third;
static void two_in_a_word(void)
{
    fill(3);
    if ((third = freeze_queue_pool_take(&pool, 1)) != &IN_POOL->tags[1].tag || IN_POOL->tags[0].word != IN_POOL->tags[2].word)
        abort();
}

static void takes_and_gives(int me)
{
    freeze_queue_tag *tag = takes_waiting(&pool, (uint32_t)me, NULL);
    NEED(tag != NULL);
    entered++;
    NEED(freeze_queue_pool_give(&pool, tag) == FREEZE_QUEUE_OK);
}
static void all_are_back(void) { NEED(entered == thread_count && IN_POOL->waiting == 0); }

static void takes_for_a_while(int me)
{
    freeze_queue_tag *tag = takes_waiting(&pool, 0, me == 0 ? &soon : NULL);
    NEED(tag != NULL || me == 0);
    if (tag != NULL)
        NEED(freeze_queue_pool_give(&pool, tag) == FREEZE_QUEUE_OK);
}

/* Both tags are out at first; their giving is the last call of two threads, and the third frees the pool. */
static freeze_queue_tag *out[2];
static void both_out(void)
{
    two_tags();
    for (uint32_t i = 0; i < 2; i++)
        if ((out[i] = freeze_queue_pool_take(&pool, i)) != &IN_POOL->tags[i].tag)
            abort();
}
/* The same of two tags whose marks share a word. */
static void both_out_of_a_word(void)
{
    two_in_a_word();
    for (uint32_t i = 0; i < 2; i++)
        if ((out[i] = freeze_queue_pool_take(&pool, 2 * i)) != &IN_POOL->tags[2 * i].tag)
            abort();
    if (freeze_queue_pool_give(&pool, third))
        abort();
}
/* The same after a call has waited for a tag in vain, which the words still say. */
static void are_awaited(void)
{
    for (uint32_t i = 0; i <= IN_POOL->last; i++)
        IN_POOL->words[i].marks |= FREEZE_QUEUE_POOL_AWAITED;
}
static void both_out_and_awaited(void)
{
    both_out();
    are_awaited();
}
static void both_out_of_an_awaited_word(void)
{
    both_out_of_a_word();
    are_awaited();
}
static void gives_the_last(int me) { NEED(freeze_queue_pool_give(&pool, out[me]) == FREEZE_QUEUE_OK); }
static void a_pool_ends(int me)
{
    if (me < 2) {
        gives_the_last(me);
        return;
    }
    NEED(freeze_queue_pool_end(&pool, NULL) == FREEZE_QUEUE_OK);
    freeze_queue_pool_destroy(&pool);
}
static void a_pool_is_emptied(int me)
{
    if (me < 2) {
        gives_the_last(me);
        return;
    }
    uint32_t answer = freeze_queue_pool_empty(&pool);
    NEED(answer == FREEZE_QUEUE_OK || answer == FREEZE_QUEUE_ERR_TAGS_OUT);
}
/* Both tags are given back twice; one of the two givings is refused. */
static void given_twice(int me)
{
    uint32_t answer = freeze_queue_pool_give(&pool, out[me / 2]);
    NEED(answer == FREEZE_QUEUE_OK || answer == FREEZE_QUEUE_ERR_TAG_NOT_OUT);
    entered += answer == FREEZE_QUEUE_OK;
}
static void each_is_back_once(void) { NEED(entered == 2); }

/* Two threads end the pool: one does, and the other returns. */
static void two_end_a_pool(int me)
{
    if (me < 2) {
        gives_the_last(me);
        return;
    }
    uint32_t answer = freeze_queue_pool_end(&pool, NULL);
    NEED(answer == FREEZE_QUEUE_OK || answer == FREEZE_QUEUE_ERR_IN_USE || answer == FREEZE_QUEUE_ERR_CLOSED);
    entered += answer == FREEZE_QUEUE_OK;
}
static void one_has_ended_it(void) { NEED(entered == 1 && IN_POOL->count == 0); }

/* A thread waits for a tag while the pool ends, and gets none or gives it back. */
static void a_pool_ends_with_a_waiter(int me)
{
    freeze_queue_tag *tag;
    if (me < 2)
        gives_the_last(me);
    else if (me == 2)
        NEED(freeze_queue_pool_end(&pool, NULL) == FREEZE_QUEUE_OK);
    else if ((tag = takes_waiting(&pool, 0, NULL)) != NULL)
        NEED(freeze_queue_pool_give(&pool, tag) == FREEZE_QUEUE_OK);
}
/* Two threads wait for the one tag when the pool ends. */
static void one_out(void)
{
    one_tag();
    if ((out[0] = freeze_queue_pool_take(&pool, 0)) != &IN_POOL->tags[0].tag)
        abort();
}
static void a_pool_ends_while_two_wait(int me)
{
    freeze_queue_tag *tag;
    if (me == 0)
        gives_the_last(me);
    else if (me == 1)
        NEED(freeze_queue_pool_end(&pool, NULL) == FREEZE_QUEUE_OK);
    else if ((tag = takes_waiting(&pool, 0, NULL)) != NULL)
        NEED(freeze_queue_pool_give(&pool, tag) == FREEZE_QUEUE_OK);
}
static void nothing(void) {}

int main(void)
{
    explore("three wait for one tag", 3, one_tag, takes_and_gives, all_are_back);
    explore("four wait for two tags", 4, two_tags, takes_and_gives, all_are_back);
    explore("three wait for two tags of a word", 3, two_in_a_word, takes_and_gives, all_are_back);
    explore("a tag with a deadline", 3, one_tag, takes_for_a_while, nothing);
    explore("a tag of a word with a deadline", 3, two_in_a_word, takes_for_a_while, nothing);
    explore("tags that are given twice", 4, both_out_of_a_word, given_twice, each_is_back_once);
    explore("awaited tags that are given twice", 4, both_out_of_an_awaited_word, given_twice, each_is_back_once);
    explore("a pool ends", 3, both_out, a_pool_ends, nothing);
    explore("a pool ends, of a word", 3, both_out_of_a_word, a_pool_ends, nothing);
    explore("a pool is emptied", 3, both_out, a_pool_is_emptied, nothing);
    explore("a pool is emptied, of a word", 3, both_out_of_a_word, a_pool_is_emptied, nothing);
    explore("a pool is emptied after a wait", 3, both_out_and_awaited, a_pool_is_emptied, nothing);
    explore("a pool is emptied after a wait, of a word", 3, both_out_of_an_awaited_word, a_pool_is_emptied, nothing);
    explore("two end a pool", 4, both_out, two_end_a_pool, one_has_ended_it);
    explore("a pool ends while a thread waits", 4, both_out, a_pool_ends_with_a_waiter, nothing);
    explore("a pool ends while a thread waits, of a word", 4, both_out_of_a_word, a_pool_ends_with_a_waiter, nothing);
    explore("a pool ends while two wait", 4, one_out, a_pool_ends_while_two_wait, nothing);
    printf("in all %lu orders, %lu states\n", (unsigned long)all_orders, (unsigned long)all_states);
    return 0;
}
