/* Functions around the kernel's percpu_ref. They are compiled like the kernel's files, so in orders each access in them is a step. */
#ifndef REF_CALLS_H
#define REF_CALLS_H
#include <stdbool.h>
#include <stddef.h>

struct percpu_ref;
size_t ref_size(void);
bool ref_init(struct percpu_ref *ref, void (*release)(struct percpu_ref *), const char *start);
bool ref_try(struct percpu_ref *ref);
bool ref_live(struct percpu_ref *ref);
void ref_get(struct percpu_ref *ref, unsigned long n);
void ref_put(struct percpu_ref *ref, unsigned long n);
bool ref_zero(struct percpu_ref *ref);
bool ref_dying(struct percpu_ref *ref);
void ref_kill(struct percpu_ref *ref);
void ref_reinit(struct percpu_ref *ref);
void ref_resurrect(struct percpu_ref *ref);
void ref_atomic(struct percpu_ref *ref);
void ref_slots(struct percpu_ref *ref);
#endif
