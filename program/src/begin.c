/* How the runtime begins: before the program's own constructors, by what a wrapper has put into a file. */
#include "runtime.h"
#include <sys/personality.h>

const char *run_folder;
static char text[8192];

/* The wrapper names a file that is open, since a text of another length would move the stack. */
static void read_words(const char *number)
{
    int file = (int)take_digits(&number, 10);
    long length = syscall(SYS_pread64, file, text, sizeof text - 1, 0L);
    if (length <= 0) {
        say("octet: start the program by octet-record or octet-again\n");
        leave_process(EXIT_UNSET);
    }
    text[length] = 0;
    syscall(SYS_close, file);
}

static const char *value_of(const char *line, const char *name)
{
    size_t i = 0;
    while (name[i] != 0 && line[i] == name[i])
        i++;
    return name[i] == 0 && line[i] == ' ' ? line + i + 1 : NULL;
}

static void take_watch(const char *value)
{
    watch_file = (int)take_digits(&value, 10);
    watch_at = take_digits(&value, 16);
    watch_size = take_digits(&value, 10);
}

static void take_word(const char *line)
{
    const char *value;
    if ((value = value_of(line, "mode")) != NULL)
        mode = *value == 'r' ? RECORD : AGAIN;
    else if ((value = value_of(line, "folder")) != NULL)
        run_folder = value;
    else if ((value = value_of(line, "stacks")) != NULL)
        all_stacks = *value == '1';
    else if ((value = value_of(line, "watch")) != NULL)
        take_watch(value);
    else if ((value = value_of(line, "report")) != NULL)
        report_file = (int)take_digits(&value, 10);
    else if ((value = value_of(line, "places")) != NULL)
        places_mask = take_digits(&value, 10) - 1;
    else if ((value = value_of(line, "window")) != NULL)
        window_most = (uint32_t)take_digits(&value, 10);
}

static void take_words(void)
{
    char *line = text;
    for (char *at = text; *at != 0; at++) {
        if (*at != '\n')
            continue;
        *at = 0;
        take_word(line);
        line = at + 1;
    }
}

static void find_main_stack(void)
{
    pthread_attr_t attributes;
    void *low = NULL;
    size_t size = 0;
    if (pthread_getattr_np(pthread_self(), &attributes) == 0) {
        pthread_attr_getstack(&attributes, &low, &size);
        pthread_attr_destroy(&attributes);
    }
    main_stack_low = (uintptr_t)low;
    main_stack_size = size;
}

static void begin_main(void)
{
    struct thread *t = &threads[0];
    t->stack_low = all_stacks ? 0 : main_stack_low;
    t->stack_size = all_stacks ? 0 : main_stack_size;
    t->away = 1;
    t->state = RESTING;
    arena_number = 0;
    t->task = (int)syscall(SYS_gettid);
    pass_key(t);
    files_begin();
    come_back(t);
}

static __attribute__((constructor(101))) void begin(void)
{
    const char *number = getenv("OCTET_RUN");
    real_begin();
    if (number == NULL) {
        mode = ALONE;
        return;
    }
    find_main_stack();
    read_words(number);
    take_words();
    if (!(personality(0xffffffff) & ADDR_NO_RANDOMIZE) || run_folder == NULL) {
        say("octet: start the program by octet-record or octet-again\n");
        leave_process(EXIT_UNSET);
    }
    for (int i = 0; i < THREADS; i++) {
        threads[i].number = i;
        threads[i].last = NO_OBJECT;
    }
    arenas_begin();
    arena_number = ARENA_OF_RUNTIME;
    inputs_begin(run_folder);
    places_begin();
    ends_begin();
    threads_begin();
    signals_begin();
    handlers_begin();
    marks_begin(run_folder);
    begin_main();
}

static __attribute__((destructor(101))) void end(void)
{
    if (mode >= RECORD)
        end_run("exit", me != NULL ? me->number : -1);
}

void _exit(int status)
{
    if (me != NULL)
        end_run("exit", me->number);
    leave_process(status);
}

void _Exit(int status)
{
    _exit(status);
}
