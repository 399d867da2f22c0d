/* Documentation/RCU/whatisRCU.rst: a callback runs after a grace period, once all sections have ended that it found. */
#ifndef SHIM_RCU
#define SHIM_RCU
#include "../shim.h"
#define rcu_read_lock() shim_rcu_lock()
#define rcu_read_unlock() shim_rcu_unlock()
#define rcu_read_lock_held() shim_rcu_held()
#define call_rcu(head, then) shim_call_rcu(head, then)
#define call_rcu_hurry(head, then) shim_call_rcu(head, then)
#endif
