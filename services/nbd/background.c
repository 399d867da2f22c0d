/* A thread of the service's own, in addition to nbdkit's. */
#include "service.h"

int begin_background(background *one, void *run(void *))
{
    int failed = pthread_create(&one->thread, NULL, run, NULL);
    one->runs = failed == 0;
    return failed;
}

void wake_background(background *one)
{
    pthread_mutex_lock(&one->lock);
    pthread_cond_signal(&one->wakes);
    pthread_mutex_unlock(&one->lock);
}

void end_background(background *one)
{
    if (!one->runs)
        return;
    pthread_mutex_lock(&one->lock);
    one->is_over = true;
    pthread_cond_signal(&one->wakes);
    pthread_mutex_unlock(&one->lock);
    pthread_join(one->thread, NULL);
    one->runs = false;
}
