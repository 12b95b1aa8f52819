/* Each thread writes into a piece of the file of its own, which is mapped: what is written down is kept however the
   program ends. Where it is full it is packed and written behind what the file has, and filled anew, so that its memory
   stays near. So a thread's first piece, which isn't packed, is its newest, and ends where an event has no kind. The first
   page is text; then the pieces follow, each begun by an event that names its thread, with room between them. */
#define _GNU_SOURCE
#include <fcntl.h>
#include <link.h>
#include <pthread.h>
#include <stdlib.h>
#include <sys/mman.h>
#include <sys/single_threaded.h>
#include <unistd.h>

#include "writing.h"

void *__real_mmap(void *, size_t, int, int, int, off_t);

enum { HEADER = 4096, PAGE = 4096, PIECE = BUFFER * sizeof(struct event) };

/* Behind a piece there is room for the event without a kind at which it ends. */
enum { PIECE_ROOM = PIECE + PAGE };

__thread struct own *taskback_own;
int taskback_is_recording;
static struct own *all_threads;
struct counter taskback_counter;
uint64_t taskback_base;
uint32_t taskback_thread_count;
static uint64_t file_end = HEADER;
static uint64_t thread_local_size;
static int file = -1;
static int is_over;

/* `record cc` links a list of the program's object files that have none of the instrumentation's calls. */
__attribute__((weak)) extern const char taskback_unseen_objects[];

static void find_stack(struct own *own) {
    pthread_attr_t attributes;
    void *low = 0;
    size_t size = 0;
    if (pthread_getattr_np(pthread_self(), &attributes) != 0)
        return;
    pthread_attr_getstack(&attributes, &low, &size);
    pthread_attr_destroy(&attributes);
    own->stack_low = (uint64_t)low;
    own->stack_high = (uint64_t)low + size;
}

static void *fresh_memory(size_t size) {
    void *memory = __real_mmap(0, size, PROT_READ | PROT_WRITE, MAP_PRIVATE | MAP_ANONYMOUS, -1, 0);
    if (memory == MAP_FAILED)
        abort();
    return memory;
}

static void use_piece(struct own *own, struct event *piece) {
    own->events = own->next = own->part = piece;
    own->made_last = own->started = 0;
    own->end = piece + BUFFER;
}

/* A thread's piece of the file, at a page, or nothing where there is no room for it. */
static struct event *map_piece(void) {
    uint64_t at = __atomic_fetch_add(&file_end, PIECE_ROOM + PAGE, __ATOMIC_ACQ_REL);
    at = (at + PAGE - 1) / PAGE * PAGE;
    if (posix_fallocate(file, (off_t)at, PIECE_ROOM) != 0)
        return 0;
    void *piece = __real_mmap(0, PIECE_ROOM, PROT_READ | PROT_WRITE, MAP_SHARED | MAP_POPULATE, file, (off_t)at);
    return piece == MAP_FAILED ? 0 : piece;
}

/* Packs the full piece, with the bytes that it takes in its first event and a mark at its end, by which the judge knows that
   it is whole; how many bytes these are, which is a multiple of an event's. */
static uint64_t pack_piece(struct own *own) {
    struct event *head = (struct event *)own->packed;
    unsigned char *to = taskback_pack(own->events, own->end, own->packed + sizeof *head);
    *head = *own->events;
    head->value = (uint64_t)(to - own->packed) - sizeof *head;
    put_word(to, ~0ull);
    to += END_MARK;
    while ((to - own->packed) % (ptrdiff_t)sizeof *head != 0)
        *to++ = 0;
    return (uint64_t)(to - own->packed);
}

/* Whether the full piece is in the file a second time. */
static int keep_piece(struct own *own) {
    uint64_t size = pack_piece(own), at = __atomic_fetch_add(&file_end, size, __ATOMIC_ACQ_REL);
    for (uint64_t done = 0; done < size;) {
        ssize_t put = pwrite(file, own->packed + done, size - done, (off_t)(at + done));
        if (put <= 0)
            return 0;
        done += (uint64_t)put;
    }
    return 1;
}

static void stop_recording(void) { __atomic_store_n(&taskback_is_recording, 0, __ATOMIC_RELEASE); }

/* That there is no room for more stands at the end of the first page. */
static void run_out_of_room(void) {
    stop_recording();
    __atomic_add_fetch(&taskback_counter.last, 1, __ATOMIC_ACQ_REL);
    ssize_t put = pwrite(file, NO_ROOM, sizeof NO_ROOM - 1, HEADER - (off_t)sizeof NO_ROOM + 1);
    (void)put;
}

/* Where there is no room the rest is left out, and the trace's numbers show that some are missing. */
SELDOM void taskback_turn_page(struct own *own) {
    own->lanes.follows = 0;
    begin_part(own);
    int is_recording = __atomic_load_n(&taskback_is_recording, __ATOMIC_ACQUIRE);
    own->next = own->part = own->events + 1;
    own->made_last = own->started = own->frame_end = 0;
    int is_kept = is_recording && keep_piece(own);
    own->events->place = 0;
    if (is_kept)
        return;
    if (is_recording)
        run_out_of_room();
    if (own->is_mapped)
        use_piece(own, fresh_memory(PIECE_ROOM));
    own->is_mapped = 0;
}

static void begin_pieces(struct own *own) {
    struct event *piece = taskback_is_recording ? map_piece() : 0;
    use_piece(own, piece ? piece : fresh_memory(PIECE_ROOM));
    own->is_mapped = piece != 0;
    if (piece) {
        own->next++->address = own->index;
        put_word(&own->events->stamp, own->stack_low);
        own->events->kind = CHUNK;
    } else if (taskback_is_recording) {
        run_out_of_room();
    }
}

/* The first module is the program; below a thread's pointer are the variables that the modules have for each thread. */
static int find_own(struct dl_phdr_info *info, size_t size, void *data) {
    int *count = data;
    (void)size;
    if ((*count)++ == 0)
        taskback_base = info->dlpi_addr;
    for (int i = 0; i < info->dlpi_phnum; i++)
        if (info->dlpi_phdr[i].p_type == PT_TLS) {
            uint64_t align = info->dlpi_phdr[i].p_align ? info->dlpi_phdr[i].p_align : 1;
            thread_local_size += (info->dlpi_phdr[i].p_memsz + align - 1) / align * align;
        }
    return 0;
}

/* A thread that comes while the first one is alone isn't the runtime's. */
static void find_strangers(struct own *own) {
    static struct own *first;
    if (own->index == 0) {
        first = own;
        own->is_alone = 1;
    } else if (first && first->is_alone) {
        taskback_has_strangers = 1;
        first->is_alone = 0;
    }
}

SELDOM void taskback_adopt(void) {
    struct own *own = fresh_memory(sizeof *own);
    taskback_own = own;
    own->part_key = PART;
    own->index = __atomic_fetch_add(&taskback_thread_count, 1, __ATOMIC_RELAXED);
    find_strangers(own);
    own->tls_size = thread_local_size;
    own->tls_low = (uint64_t)__builtin_thread_pointer() - thread_local_size;
    find_stack(own);
    begin_pieces(own);
    own->link = __atomic_load_n(&all_threads, __ATOMIC_ACQUIRE);
    while (!__atomic_compare_exchange_n(&all_threads, &own->link, own, 0, __ATOMIC_ACQ_REL, __ATOMIC_ACQUIRE))
        ;
}

struct event *taskback_note(struct own *own, enum kind kind, uint32_t task, uint64_t address, uint64_t value,
                            uint64_t place) {
    if (own->lanes.follows)
        taskback_part_lane(own);
    return note(own, kind, task, address, value, place);
}

static int add(char *line, int at, int most, const char *words) {
    while (*words && at < most)
        line[at++] = *words++;
    return at;
}

/* The first page names the program, and on a second line the objects that it was linked from and that aren't seen. */
static int put_header(void) {
    char path[3072], page[HEADER];
    ssize_t length = readlink("/proc/self/exe", path, sizeof path - 1);
    path[length > 0 ? length : 0] = 0;
    for (int i = 0; i < HEADER; i++)
        page[i] = '\n';
    int at = add(page, 0, HEADER - 2, "taskback trace 5 ");
    at = add(page, at, HEADER - 2, path) + 1;
    if (&taskback_unseen_objects != 0)
        add(page, at, HEADER - 2, taskback_unseen_objects);
    return pwrite(file, page, sizeof page, 0) == sizeof page;
}

/* A child of `fork` goes on without the recorder: the file is its parent's. */
static void leave_to_the_parent(void) {
    stop_recording();
    for (struct own *own = all_threads; own; own = own->link)
        if (own != taskback_own)
            own->next = own->end = own->events;
    if (taskback_own) {
        taskback_own->unread = 0;
        use_piece(taskback_own, fresh_memory(PIECE_ROOM));
        taskback_own->lanes.follows = 0;
        begin_part(taskback_own);
    }
}

static void note_fork(void) {
    if (taskback_own)
        taskback_note(taskback_own, NOTE, taskback_own->task, 0, NOTE_FORK, 0);
}

__attribute__((constructor(101))) static void at_the_beginning(void) {
    const char *name = getenv("TASKBACK_TRACE"), *tools = getenv("OMP_TOOL");
    int modules = 0;
    dl_iterate_phdr(find_own, &modules);
    __libc_single_threaded = 0; /* or a lone thread's counts of shared pointers aren't atomic */
    if (!name)
        return;
    /* Libomp 14 ends by a fault where `target nowait` has a thread of its own beside a team of one. */
    setenv("LIBOMP_USE_HIDDEN_HELPER_TASK", "0", 0);
    file = open(name, O_RDWR | O_CREAT | O_TRUNC | O_CLOEXEC, 0666);
    taskback_is_recording = file >= 0 && put_header();
    pthread_atfork(note_fork, 0, leave_to_the_parent);
    if (tools && tools[0] == 'd')
        taskback_note(own_state(), NOTE, 0, 0, NOTE_NO_TOOL, 0);
}

void taskback_end_trace(void) {
    if (__atomic_exchange_n(&is_over, 1, __ATOMIC_ACQ_REL) || !taskback_is_recording)
        return;
    struct own *own = own_state();
    taskback_settle(own);
    taskback_note(own, ENDED, own->task, 0, 0, 0);
}

__attribute__((destructor(101))) static void at_the_end(void) { taskback_end_trace(); }
