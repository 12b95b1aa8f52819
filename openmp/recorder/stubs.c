/* Calls of the instrumentation that tell nothing more. */
void __tsan_init(void) {}
void __tsan_ignore_thread_begin(void) {}
void __tsan_ignore_thread_end(void) {}

/* The thread instrumentation tells virtual tables' pointers apart; coverage has their loads and stores already. */
void __tsan_vptr_update(void **address, void *value) { (void)address, (void)value; }
void __tsan_vptr_read(void **address) { (void)address; }
