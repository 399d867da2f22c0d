/* The queue in front of a backend: its parameters, its start and end, and the thread that looks for nbdkit's end while
 * requests wait. */
#define NBDKIT_API_VERSION 2
#include "service.h"
#include <errno.h>
#include <grp.h>
#include <inttypes.h>
#include <nbdkit-plugin.h>
#include <stdlib.h>
#include <string.h>
#include <unistd.h>

/* How long the end waits for tags, in nanoseconds. Once every client has gone, no tag is out. */
#define END_WITHIN (UINT64_C(10) * 1000 * 1000 * 1000)

static const char JOURNAL[] = "/run/systemd/journal/socket";
enum { NAME_MOST = 63 };

service blkq = {
    .limits = {.hardware = MOST_COUNT, .physical = 1},
    .tags = 63,
    .control_at = -1,
    .control_group = (gid_t)-1,
    .control_mode = 0700,
};

int refuse(const char *subject, const char *why)
{
    nbdkit_error("%s: %s", subject, why);
    return -1;
}

/* ---- The command line ---- */

static int parse_nowait(const char *text)
{
    int yes = nbdkit_parse_bool(text);
    blkq.nowait = yes == 1;
    return yes < 0 ? -1 : 0;
}

int parse_time(const char *key, const char *text, uint64_t *nanoseconds)
{
    char word[32] = "";
    strncpy(word, text, sizeof word - 1);
    const char *fault = strlen(text) < sizeof word ? parse_seconds(word, nanoseconds) : "bad number";
    return fault == NULL || strcmp(text, "0") == 0 ? 0 : refuse(key, fault);
}

/* A name is printed in metrics and in the journal, where other characters would have a meaning of their own. */
static bool is_of_name(char one) { return one != '"' && one != '\\' && (unsigned char)one >= ' '; }

static int parse_name(const char *key, const char *text)
{
    size_t length = 0;
    while (is_of_name(text[length]))
        length++;
    if (length == 0 || length > NAME_MOST || text[length] != '\0')
        return refuse(key, "a name has 1 to 63 characters, and no double quotes, backslashes or control characters");
    free(blkq.name);
    blkq.name = strdup(text);
    return blkq.name == NULL ? refuse(key, strerror(errno)) : 0;
}

const char *disk_name(void) { return blkq.name; }

/* The default name of the disk is its control's path, if it has a control. */
static int name_disk(void)
{
    if (blkq.name == NULL)
        blkq.name = strdup(blkq.control == NULL ? "" : blkq.control);
    for (char *at = blkq.name; at != NULL && *at != '\0'; at++)
        if (!is_of_name(*at))
            *at = '?';
    return blkq.name == NULL ? refuse("name", strerror(errno)) : 0;
}

static int parse_group(const char *key, const char *text)
{
    const struct group *found = getgrnam(text);
    if (found == NULL)
        return refuse(key, "no such group");
    blkq.control_group = found->gr_gid;
    return 0;
}

/* Connecting needs the right to write to the socket. */
static int parse_mode(const char *key, const char *text)
{
    char *end;
    unsigned long mode = strtoul(text, &end, 8);
    if (*text < '0' || *text > '7' || *end != '\0' || mode > 0777)
        return refuse(key, "has to be an octal mode, such as 660");
    blkq.control_mode = (mode_t)mode;
    return 0;
}

static int take_path(char **taken, const char *path)
{
    free(*taken);
    *taken = nbdkit_absolute_path(path);
    return *taken == NULL ? -1 : 0;
}

static int parse_control(const char *key, const char *path)
{
    blkq.control_key = key;
    return take_path(&blkq.control, path);
}

static int parse_control_at(const char *key, const char *text)
{
    blkq.control_at_key = key;
    return nbdkit_parse_int(key, text, &blkq.control_at);
}

/* Takes a parameter by its name. 1: there is no such parameter; -1: refused, and the reason is logged. */
static int take_parameter(const char *key, const char *name, const char *value)
{
    const struct { const char *name; uint32_t *value; } numbers[] = {
        {"hardware_sectors", &blkq.limits.hardware}, {"max_sectors", &blkq.limits.max},
        {"chunk_sectors", &blkq.limits.chunk},       {"physical_sectors", &blkq.limits.physical},
        {"slots", &blkq.slots},                      {"tags", &blkq.tags},
    };
    for (size_t i = 0; i < sizeof numbers / sizeof *numbers; i++)
        if (strcmp(name, numbers[i].name) == 0)
            return nbdkit_parse_uint32_t(key, value, numbers[i].value);
    if (strcmp(name, "drain_timeout") == 0)
        return parse_time(key, value, &blkq.drain_timeout);
    if (strcmp(name, "max_hold") == 0)
        return parse_time(key, value, &blkq.max_hold);
    if (strcmp(name, "nowait") == 0)
        return parse_nowait(value);
    if (strcmp(name, "name") == 0)
        return parse_name(key, value);
    if (strcmp(name, "audit") == 0)
        return take_path(&blkq.audit, strcmp(value, "journal") == 0 ? JOURNAL : value);
    if (strcmp(name, "control_fd") == 0)
        return parse_control_at(key, value);
    if (strcmp(name, "control_group") == 0)
        return parse_group(key, value);
    if (strcmp(name, "control_mode") == 0)
        return parse_mode(key, value);
    return strcmp(name, "control") == 0 ? parse_control(key, value) : 1;
}

int configure_queue(const char *key, const char *name, const char *value)
{
    int taken = take_parameter(key, name, value);
    return taken > 0 ? refuse(key, "no such parameter") : taken;
}

void unload_queue(void)
{
    free(blkq.control);
    free(blkq.name);
    free(blkq.audit);
}

/* ---- nbdkit's end ---- */

static background watch = NO_BACKGROUND;

void watch_for_the_end(void) { wake_background(&watch); }

/* Sleeps until a request waits or the watch is over. Returns whether the watch goes on. */
static bool sleep_until_needed(void)
{
    pthread_mutex_lock(&watch.lock);
    while (!watch.is_over && atomic_load(&blkq.waiting) == 0)
        pthread_cond_wait(&watch.wakes, &watch.lock);
    bool goes_on = !watch.is_over;
    pthread_mutex_unlock(&watch.lock);
    return goes_on;
}

/* Keeps every request out from now on, by a freeze that no line thaws; waiting requests are refused. If the depth is at its
 * maximum of a thousand, it takes over one of the freezes. */
static uint32_t mark_dying(void)
{
    uint32_t refused = freeze_queue_waits_mark_dying(&blkq.waits);
    while (refused == FREEZE_QUEUE_ERR_DEPTH_FULL && !freeze_queue_is_refused(freeze_queue_waits_thaw(&blkq.waits)))
        refused = freeze_queue_waits_mark_dying(&blkq.waits);
    return refused;
}

/* nbdkit_nanosleep returns early when nbdkit ends. */
static void *look_for_the_end(void *nothing)
{
    while (sleep_until_needed())
        if (nbdkit_nanosleep(1, 0) != 0) {
            (void)mark_dying();
            break;
        }
    return nothing;
}

/* ---- The queue comes and goes ---- */

/* A slot for each processor that may ever be online. */
static uint32_t processors(void)
{
    long found = sysconf(_SC_NPROCESSORS_CONF);
    return found < 1 ? 1 : found > FREEZE_QUEUE_MOST_SLOTS ? FREEZE_QUEUE_MOST_SLOTS : (uint32_t)found;
}

/* Counts are found by the address of a tag, and the search for a tag begins at the place of a slot (request.c). */
static void place_tags(void)
{
    freeze_queue_tag *first = freeze_queue_pool_take(&blkq.pool, 0);
    blkq.first_tag = (uintptr_t)first / sizeof(freeze_queue_pooled);
    blkq.tags_apart = (blkq.tags << 16) / blkq.slots;
    freeze_queue_pool_give(&blkq.pool, first);
}

int make_queue(void)
{
    if (take_control() != 0 || name_disk() != 0 || find_journal() != 0)
        return -1;
    if (blkq.slots == 0)
        blkq.slots = processors();
    uint32_t refused = freeze_queue_new(&blkq.freezer, &blkq.limits, blkq.slots, blkq.tags);
    if (refused == FREEZE_QUEUE_OK)
        refused = freeze_queue_waits_init(&blkq.waits, &blkq.freezer);
    if (refused == FREEZE_QUEUE_OK)
        refused = freeze_queue_pool_fill(&blkq.pool, &blkq.waits, blkq.tags);
    if (refused != FREEZE_QUEUE_OK)
        return refuse("queue", freeze_queue_text(refused));
    place_tags();
    return bind_control();
}

/* Opened here, because the events belong to the process that opens them and nbdkit has forked into the background by now. */
int start_threads(void)
{
    int failed = freeze_queue_waits_open_events(&blkq.waits) == FREEZE_QUEUE_OK ? 0 : errno;
    if (failed == 0)
        failed = begin_background(&watch, look_for_the_end);
    if (failed == 0 && blkq.flush != NULL)
        failed = start_flushing();
    return failed == 0 ? start_control() : refuse("thread", strerror(failed));
}

void end_queue(void)
{
    freeze_queue_final last;
    end_background(&watch);
    end_control();
    end_flushing();
    const struct timespec late = freeze_queue_deadline(END_WITHIN);
    uint32_t refused = mark_dying();
    if (refused == FREEZE_QUEUE_OK)
        refused = freeze_queue_pool_end(&blkq.pool, &late);
    if (refused == FREEZE_QUEUE_OK)
        refused = freeze_queue_waits_end(&blkq.waits, &last, &late);
    if (refused != FREEZE_QUEUE_OK) {
        nbdkit_error("queue: %s", freeze_queue_text(refused));
        return;
    }
    freeze_queue_pool_destroy(&blkq.pool);
    nbdkit_debug("frozen %" PRIu64 " times", last.kills);
}
