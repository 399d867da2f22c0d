/* The exports through which the owner of a freeze or a snapshot reads the backend, bypassing the queue. An export's name is drawn at random, so nobody
 * else knows it. Its number is removed before the thaw, so a read that finds the export still open afterwards was under the freeze throughout. */
#include "service.h"
#include <inttypes.h>
#include <stdio.h>
#include <string.h>
#include <sys/random.h>

enum { EXPORTS = 64, DRAWN = 16 /* bytes */ };

static const char prefix[] = "blkq-copy-";

/* The lock guards the names. The number of the export at place p is congruent to p modulo EXPORTS; 0: there is none. */
static struct {
    atomic_uint_fast64_t number, read, size;
    atomic_bool are_alike;
    char name[EXPORT_NAME];
} exports[EXPORTS];
static uint64_t opened;
static pthread_mutex_t lock = PTHREAD_MUTEX_INITIALIZER;

static bool draw_name(char name[EXPORT_NAME])
{
    unsigned char drawn[DRAWN];
    if (getrandom(drawn, sizeof drawn, 0) != sizeof drawn)
        return false;
    strcpy(name, prefix);
    for (size_t i = 0; i < sizeof drawn; i++)
        sprintf(name + sizeof prefix - 1 + 2 * i, "%02x", drawn[i]);
    return true;
}

uint64_t open_export(char name[EXPORT_NAME])
{
    uint64_t place = 0, number = 0;
    while (place < EXPORTS && atomic_load(&exports[place].number) != 0)
        place++;
    if (place == EXPORTS || !draw_name(name))
        return 0;
    number = ++opened * EXPORTS + place;
    pthread_mutex_lock(&lock);
    strcpy(exports[place].name, name);
    atomic_store(&exports[place].read, 0);
    atomic_store(&exports[place].size, 0);
    atomic_store(&exports[place].number, number);
    pthread_mutex_unlock(&lock);
    return number;
}

void close_export(uint64_t number)
{
    if (number != 0)
        atomic_store(&exports[number % EXPORTS].number, 0);
}

bool is_export_open(uint64_t number) { return atomic_load(&exports[number % EXPORTS].number) == number; }

bool is_export_name(const char *name) { return strncmp(name, prefix, sizeof prefix - 1) == 0; }

uint64_t find_export(const char *name, const char **rest)
{
    uint64_t found = 0;
    size_t length = strcspn(name, "/");
    pthread_mutex_lock(&lock);
    for (size_t place = 0; place < EXPORTS; place++) {
        uint64_t number = atomic_load(&exports[place].number);
        if (number != 0 && strlen(exports[place].name) == length && strncmp(exports[place].name, name, length) == 0)
            found = number;
    }
    pthread_mutex_unlock(&lock);
    *rest = name[length] == '/' ? name + length + 1 : "";
    return found;
}

void note_export(uint64_t number, uint64_t size, bool are_alike)
{
    atomic_store(&exports[number % EXPORTS].size, size);
    atomic_store(&exports[number % EXPORTS].are_alike, are_alike);
}

void count_export(uint64_t number, uint64_t bytes) { atomic_fetch_add(&exports[number % EXPORTS].read, bytes); }

bool told_by_export(uint64_t number, uint64_t *read, uint64_t *size)
{
    *read = atomic_load(&exports[number % EXPORTS].read);
    *size = atomic_load(&exports[number % EXPORTS].size);
    return atomic_load(&exports[number % EXPORTS].are_alike);
}

/* ---- Lines of the control ---- */

void export_hold(controller *from)
{
    char name[EXPORT_NAME], address[ADDRESS], text[sizeof name + sizeof address + 16];
    uint32_t place = needed_hold(from);
    if (place == 0)
        return;
    uint64_t *number = export_of(place - 1);
    close_export(*number);
    *number = blkq.exports ? open_export(name) : 0;
    tell_address(address, sizeof address);
    snprintf(text, sizeof text, "export %s %s", name, address);
    say(from, *number != 0 ? text : blkq.exports ? "too many exports" : "no backend");
}

void tell_copied(controller *from)
{
    char text[64];
    uint64_t read = 0, size = 0, number = from->has_snapshot ? blkq.snapshots->export() : 0;
    uint32_t place = number == 0 ? needed_hold(from) : 0;
    if (place != 0)
        number = *export_of(place - 1);
    else if (number == 0)
        return;
    bool are_alike = told_by_export(number, &read, &size);
    snprintf(text, sizeof text, "copied %" PRIu64 " of %" PRIu64 " %s", read, size, are_alike ? "alike" : "apart");
    say(from, number != 0 ? text : "no export");
}
