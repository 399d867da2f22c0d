/* Included where the library's own calls are meant, and not what the header makes of them in place, or for the thread sanitizer. */
#undef freeze_queue_try_enter
#undef freeze_queue_try_enter_frozen
#undef freeze_queue_leave
#undef freeze_queue_leave_biased
#undef freeze_queue_give_tag_back
#undef freeze_queue_limits_of
#undef freeze_queue_start_freeze
#undef freeze_queue_poll_drained
#undef freeze_queue_set
#undef freeze_queue_thaw
