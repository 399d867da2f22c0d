/* Shared by the files of nbdkit-blkq-filter and nbdkit-blkq-plugin: the queue in front of a backend, and the functions of each file. */
#ifndef SERVICE_H
#define SERVICE_H

#include <freeze_queue_pool.h>
#include <pthread.h>
#include <stdatomic.h>
#include <stdbool.h>
#include <stddef.h>
#include <stdint.h>
#include <stdio.h>
#include <sys/types.h>

enum { SECTOR = 512 /* bytes */, MOST_COUNT = 65535 /* greatest number of sectors in a command */ };

typedef enum operation { READ, WRITE, TRIM, ZERO, CACHE, EXTENTS, FLUSH, OPERATIONS } operation;
extern const char *const operations[OPERATIONS]; /* their names */

/* Durations: bucket n counts those of at most 2^n microseconds that no earlier bucket counts; the last bucket counts all longer ones. */
enum { BUCKETS = 25 };
typedef struct histogram {
    atomic_uint_fast64_t nanoseconds; /* the sum */
    atomic_uint_fast64_t buckets[BUCKETS];
} histogram;

/* The requests of one operation with one tag. latency counts those that succeeded. */
typedef struct operation_counts {
    _Alignas(64) atomic_uint_fast64_t bytes, pieces, failed;
    histogram latency; /* from arrival to leaving, including waits */
    histogram waiting; /* of requests that had to wait for a tag or for the thaw */
} operation_counts;

/* One tag's counts, on their own cache lines. Only the request that has the tag changes them. */
typedef struct counts {
    _Alignas(128) operation_counts of[OPERATIONS];
    atomic_uint_fast64_t again; /* requests refused because of a frozen queue and nowait */
    atomic_uint_fast64_t since, offset; /* of its request in flight: when it arrived, in nanoseconds; 0: there is none */
    atomic_uint operation, length;
} counts;

typedef struct controller controller;

/* The snapshots that were taken, those that were lost, and the blocks that were kept for all of them; of the one that there is now, the bytes in its overlay
 * and its age. */
typedef struct snapshot_counts {
    uint64_t taken, lost, kept, bytes;
    double seconds;
} snapshot_counts;

/* What the control's thread asks of the filter's snapshots. */
typedef struct snapshots {
    void (*run)(controller *from);          /* runs a line */
    void (*forget)(const controller *from); /* its connection has ended */
    uint64_t (*end_old)(uint64_t at);      /* ends what is too old. Returns when the next one will be; UINT64_MAX: there is none */
    void (*list)(FILE *file);               /* writes a line of `holders` */
    snapshot_counts (*count)(void);
    uint64_t (*export)(void);               /* its number, if a controller has a snapshot */
} snapshots;

typedef struct service {
    freeze_queue_limits limits; /* at the start, from the command line */
    uint32_t slots; /* 0 on the command line: one for each processor */
    uint32_t tags;
    uint32_t tags_apart; /* places of the pool from one slot to the next, times 2^16 */
    uintptr_t first_tag; /* the address of the pool's first tag, in tags */
    bool nowait;         /* a request to a frozen queue is refused instead of waiting */
    char *control;       /* the path of the control's socket, or NULL */
    int control_at;      /* its socket, if another program made it and listens; else -1 */
    const char *control_key, *control_at_key; /* the names of their parameters, on the command line; NULL: not given */
    gid_t control_group; /* (gid_t)-1: that of the process */
    mode_t control_mode;
    char *name;          /* of the disk, for metrics and the journal; NULL: the control's path */
    char *audit;         /* the journal's socket, or NULL */
    uint64_t drain_timeout, max_hold; /* in nanoseconds; 0: none */
    bool exports;        /* the backend can be read bypassing the queue */
    const snapshots *snapshots; /* NULL: there are none */
    int (*flush)(void);  /* flushes the backend: 0, or an errno; NULL if nothing can be lost */
    freeze_queue freezer;
    freeze_queue_waits waits;
    freeze_queue_pool pool;
    atomic_bool flush_lost; /* a flush of the backend has failed */
    atomic_uint waiting; /* requests that wait for a tag or for the thaw */
    counts counts[FREEZE_QUEUE_MOST_TAGS]; /* in the order of the tags */
} service;

extern service blkq;

/* ---- background.c ---- */

/* A thread that sleeps until it is woken for work, or to end. */
typedef struct background {
    pthread_mutex_t lock;
    pthread_cond_t wakes;
    pthread_t thread;
    bool runs, is_over; /* is_over: under the lock */
} background;

#define NO_BACKGROUND {.lock = PTHREAD_MUTEX_INITIALIZER, .wakes = PTHREAD_COND_INITIALIZER}

/* Starts the thread: 0, or an errno; wakes it; ends it and waits for its end, if it was started. */
int begin_background(background *one, void *run(void *));
void wake_background(background *one);
void end_background(background *one);

/* ---- queue.c: start and end of the queue, for the filter and the plugin ---- */

/* Takes a parameter of the queue by its name; key is its name on the command line. -1: refused, and the reason is logged. */
int configure_queue(const char *key, const char *name, const char *value);

/* Make the queue and the control's socket, before nbdkit goes into the background; then open the events and start the
 * threads. -1: refused. */
int make_queue(void);
int start_threads(void);

/* End the threads and the queue once every client has gone; free the parameters, also of a server that didn't start. */
void end_queue(void);
void unload_queue(void);

/* The disk's name, for metrics and the journal. */
const char *disk_name(void);

/* Logs the reason of a refusal. Returns -1. */
int refuse(const char *subject, const char *why);

/* Reads the seconds of a parameter, or 0. -1: refused, and the reason is logged. */
int parse_time(const char *key, const char *text, uint64_t *nanoseconds);

/* Wakes the thread that looks for nbdkit's end, since a request waits. */
void watch_for_the_end(void);

/* ---- request.c ---- */

typedef struct request request;

/* Has the backend do count bytes from offset on: 0, or an errno. */
typedef int piece_call(const request *wanted, uint64_t offset, uint32_t count, bool is_last);

/* A request of count bytes from offset on. */
struct request {
    operation operation;
    uint32_t flags; /* of nbdkit */
    uint32_t count;
    uint64_t offset;
    uint32_t minimum;     /* bytes of the backend's smallest block: no piece ends inside one */
    bool is_whole;        /* more than one piece is ENOTSUP */
    piece_call *do_piece;
    void *bytes;   /* of a read or a write */
    void *backend; /* for do_piece */
};

/* Does a request under the limits in force: 0, or an errno. EAGAIN: the queue is frozen, with nowait; ESHUTDOWN: the server ends or
 * the client has gone; EIO: the queue refused a call, which no request causes; otherwise the backend's errno. */
int serve(const request *wanted);

/* ---- errors.c ---- */

/* Logs a request that failed, with its errno, unless ten were logged in the last ten seconds. */
void log_failure(const request *wanted, int failed, bool has_export);

/* ---- line.c ---- */

typedef enum verb {
    NOTHING, FREEZE, QUIESCE, FLUSH_NOW, EXPORT, COPIED_NOW, ADDRESS_NOW, SNAPSHOT, LABEL, THAW, THAW_ONE, THAW_ALL, HOLDERS, REQUESTS, NUMBER, SET, WHY, MODE, STAT, METRICS
} verb;
typedef enum snapshot_step { PREPARE, TAKE, END } snapshot_step;
/* How long a freeze lasts: as long as its connection; the same, but no longer than a time (HELD); for a time (LEASED); until it is
 * thawed by its number or by `thaw all`, or until blkq-max-hold (KEPT). */
typedef enum holding { WHILE_CONNECTED, HELD, LEASED, KEPT } holding;
enum { MAX_SECTORS, CHUNK_SECTORS, PHYSICAL_SECTORS, FIELDS };

extern const char *const fields[FIELDS];

/* A line of the control. */
typedef struct command {
    verb verb;
    holding holding;       /* of FREEZE and QUIESCE */
    uint64_t lasts;        /* nanoseconds of HELD and LEASED */
    uint32_t number;       /* of THAW_ONE: a freeze's */
    const char *label;     /* of LABEL: the rest of its line */
    snapshot_step step;    /* of SNAPSHOT */
    bool is_once, is_tracked; /* of PREPARE */
    const char *since;     /* of TAKE: the name of the copy before; "" */
    bool is_whole;         /* of END */
    uint32_t mode;         /* FREEZE_QUEUE_MODE_SLOTS or FREEZE_QUEUE_MODE_ATOMIC */
    bool sets[FIELDS];     /* of SET: the fields that it names */
    uint32_t to[FIELDS];   /* the values of these fields, in sectors */
} command;

/* Reads seconds above 0 such as 1.5, with at most 9 digits after the point. Returns NULL, or the fault. */
const char *parse_seconds(char *word, uint64_t *nanoseconds);

/* Parses a line, cutting it into words in place. Returns NULL, or the first fault of docs/FORMATS.md. */
const char *parse(char *line, command *parsed);

/* ---- control.c: called only by the control's thread ---- */

enum { LINE_MOST = 256 }; /* maximum length of a line in bytes, with its line feed */

typedef enum stage { IDLE, DRAINING, FLUSHING } stage;

/* The process behind a controller, and its label. */
typedef struct who {
    int pid;
    unsigned uid;
    char label[64];
} who;
#define WHO "pid %d uid %u \"%s\""
#define WHOSE(who) (who).pid, (who).uid, (who).label

/* A connection to the control. */
struct controller {
    int at; /* -1: nobody */
    who who;
    uint64_t number; /* of its last freeze, even if that isn't answered yet */
    stage stage;
    command asked;   /* unless IDLE: the pending line, whose freeze has begun */
    uint64_t since;  /* when its stage began, in nanoseconds */
    uint64_t ticket; /* while FLUSHING: the flush that it waits for */
    uint32_t refused; /* the queue's last refusal of one of its lines */
    char ended[64];   /* how its last freeze ended by itself, since that refusal */
    uint64_t heard;  /* when it last sent something, in nanoseconds */
    bool has_ended;  /* it sends no more */
    size_t filled;
    char line[LINE_MOST];
    char *reply; /* bytes from sent to length aren't sent yet */
    size_t length, sent;
    bool has_snapshot;
};

/* The number of a freeze or a snapshot that begins. */
uint64_t next_number(void);

/* Runs a line, and replies to it or leaves it pending. */
void run_line(controller *from, char *line);

/* Continues the pending line of a controller that isn't IDLE, if the queue is drained or the flush is done. */
void go_on(controller *from);

/* Ends all that a controller holds unless it is kept or leased, since its connection ended. */
void forget_controller(controller *from);

/* Ends holds, drains and flushes that take too long. Returns the milliseconds until the next one will; -1 if there is none. */
int end_late(void);

/* The state of the queue: running, draining, flushing or held. */
const char *state_now(void);

/* Nanoseconds of CLOCK_MONOTONIC. */
uint64_t now(void);

/* ---- holds.c ---- */

extern const char *const verbs[]; /* of the lines that freeze */

/* Count a freeze that begins; thaw a freeze that isn't held, or no longer. */
void count_freeze(void);
void thaw_queue(void);

/* Add the freeze that a controller asked for to the holds; end the hold at a place, and note why. */
void add_hold(controller *from);
void end_hold(uint32_t place, const char *why);

uint32_t holds_now(void);

/* Whether a controller holds a freeze or a snapshot, or will. */
bool holds_any(const controller *from);

/* One more than the place of the last freeze that a controller holds, or of the freeze with a number; 0: there is none. */
uint32_t last_hold(const controller *from);
uint32_t hold_numbered(uint64_t number);

/* The same for the last freeze; if there is none, replies to the controller. */
uint32_t needed_hold(controller *from);

/* The number of a hold's export, for reading and changing. */
uint64_t *export_of(uint32_t place);

/* Ends all that a controller holds unless it is kept or leased, since its connection ended. */
void forget_holds(const controller *from);

/* Ends each hold whose time has come. Returns when the next one ends; UINT64_MAX: there is none. */
uint64_t end_late_holds(uint64_t at);

/* Writes a line for each freeze and snapshot, and a last line; one line, with - for an end at UINT64_MAX. */
void list_holds(FILE *file);
void list_holder(FILE *file, uint64_t number, const char *verb, const char *stage, uint64_t since, const who *who, uint64_t ends_at);

/* The seconds since the queue was last running, 0 if it runs; the seconds since a time. */
double seconds_frozen(void);
double seconds_since(uint64_t at);

/* ---- audit.c ---- */

/* Notes what was done, in nbdkit's debug log and, with blkq-audit, in the journal. */
void note(const char *format, ...) __attribute__((format(printf, 1, 2)));

/* Whether a journal that was asked for is there; -1: it isn't, and the reason is logged. The notes that it didn't take. */
int find_journal(void);
uint64_t lost_notes(void);

/* ---- flush.c: a thread that flushes, so that the control goes on meanwhile ---- */

/* Start the thread and make flush_event, which is readable once a flush is done: 0, or an errno; end both. */
int start_flushing(void);
void end_flushing(void);
int flush_event(void);

/* Asks for a flush that begins after this call. Returns its ticket. */
uint64_t ask_flush(void);

/* Whether the flush of a ticket is done; failed gets its errno, or the errno of a later flush that has failed since. */
bool is_flushed(uint64_t ticket, int *failed);

/* ---- exports.c ---- */

enum { EXPORT_NAME = 48, ADDRESS = 256 /* bytes of a name, and of a server's address, with their ends */ };

/* Open an export for a freeze or a snapshot, with a random name, and return its number, or 0 if there are too many; close it, which has to come before
 * the thaw (0: no export). Called only by the control's thread. */
uint64_t open_export(char name[EXPORT_NAME]);
void close_export(uint64_t number);

/* Whether an export is still open; whether a name has the form of an export's name; the number of the open export with a name, or 0. rest
 * gets the name for the backend, which follows a /. */
bool is_export_open(uint64_t number);
bool is_export_name(const char *name);
uint64_t find_export(const char *name, const char **rest);

/* Note the size of the disk behind an export, and whether all connections to it see the same; bytes that were told through it. Tell the sums, and whether
 * they see the same. */
void note_export(uint64_t number, uint64_t size, bool are_alike);
void count_export(uint64_t number, uint64_t bytes);
bool told_by_export(uint64_t number, uint64_t *read, uint64_t *size);

/* Run lines. The first opens an export for the last freeze that the controller holds, and closes the export that the freeze had. The second tells how much
 * was read through the controller's export: that of its snapshot, or of that freeze. */
void export_hold(controller *from);
void tell_copied(controller *from);

/* ---- address.c ---- */

/* Write where nbdkit listens for clients: unix:PATH, tcp:HOST:PORT, or none; reply with it. */
void tell_address(char *text, size_t most);
void say_address(controller *to);

/* ---- metrics.c ---- */

/* Changed only by the control's thread. */
typedef struct control_counts {
    uint64_t freezes, quiesces, thaws, settings, refused;
    uint64_t draining, flushing, frozen; /* nanoseconds */
    uint32_t mode;
} control_counts;

extern control_counts controlled;

/* The nanoseconds for which the queue has been frozen in all. */
uint64_t time_frozen(void);

/* Write the line of `stat`, the lines of `holders` and of `requests`, and the metrics in the OpenMetrics format, into an allocation of length bytes; NULL:
 * out of memory. */
char *tell_stat(size_t *length);
char *tell_holders(size_t *length);
char *tell_requests(size_t *length);
char *tell_metrics(size_t *length);

/* ---- socket.c ---- */

/* Takes over the control's socket from another program, if it passed one. -1: refused. */
int take_control(void);

/* Make the control's socket and listen; start the thread that serves it; end both. -1: refused. */
int bind_control(void);
int start_control(void);
void end_control(void);

/* The next connected controller; NULL begins and ends the list. */
controller *next_controller(controller *after);

/* Whether a descriptor is the control's socket. */
bool is_of_control(int at);

/* Whether a controller may begin a freeze: those in the last places may not. */
bool may_freeze(const controller *from);

/* Adds to the reply of a controller. */
void say(controller *to, const char *text);
void say_all(controller *to, char *text, size_t length); /* frees the text */

#endif
