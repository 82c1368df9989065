// The same scripts on real threads in plain C, to run under ThreadSanitizer, Helgrind and DRD, which are
// what one would else take to see which accesses of threads depend on each other. bench/run --peers builds
// and calls it. `peers run SCRIPT` has a plain word for each object, `peers locked SCRIPT` a mutex too.
#include <pthread.h>
#include <stdint.h>
#include <stdio.h>
#include <stdlib.h>
#include <string.h>

enum { MAX_THREADS = 64, MAX_OBJECTS = 1 << 16, MAX_OPEN = 64, REGISTERS = 16, WORDS_APART = 8 };

enum operation { SET, COPY, ADD, SUB, MUL, XOR, LESS, SAME, READ, WRITE, WHILE, IF, END, NOTHING };

struct command {
    enum operation operation;
    int first, second, third;
    uint64_t number;
};

struct thread {
    struct command *commands;
    int count, room;
    uint64_t *values_read;
    int reads, room_for_reads;
};

static struct thread threads[MAX_THREADS];
static char *names[MAX_OBJECTS];
// Each object has a line of the processor's cache to itself.
static uint64_t objects[MAX_OBJECTS * WORDS_APART];
static pthread_mutex_t locks[MAX_OBJECTS];
static int thread_count, object_count, is_locked;
static uint32_t fuel = 16384;

static int object_of(const char *name) {
    for (int object = object_count - 1; object >= 0; object--)
        if (!strcmp(names[object], name)) return object;
    abort();
}

static int register_of(const char *word) { return atoi(word + 1); }

static void lock(int object) {
    if (is_locked) pthread_mutex_lock(&locks[object]);
}

static void unlock(int object) {
    if (is_locked) pthread_mutex_unlock(&locks[object]);
}

static void keep_read(struct thread *thread, uint64_t value) {
    if (thread->reads == thread->room_for_reads) {
        thread->room_for_reads = thread->room_for_reads ? 2 * thread->room_for_reads : 64;
        thread->values_read = realloc(thread->values_read, sizeof(uint64_t) * thread->room_for_reads);
    }
    thread->values_read[thread->reads++] = value;
}

static void *run_thread(void *argument) {
    struct thread *thread = argument;
    uint64_t r[REGISTERS] = {0};
    uint32_t left = fuel;
    for (int at = 0; at < thread->count && left--;) {
        struct command *c = &thread->commands[at++];
        switch (c->operation) {
        case SET: r[c->first] = c->number; break;
        case COPY: r[c->first] = r[c->second]; break;
        case ADD: r[c->first] = r[c->second] + r[c->third]; break;
        case SUB: r[c->first] = r[c->second] - r[c->third]; break;
        case MUL: r[c->first] = r[c->second] * r[c->third]; break;
        case XOR: r[c->first] = r[c->second] ^ r[c->third]; break;
        case LESS: r[c->first] = r[c->second] < r[c->third]; break;
        case SAME: r[c->first] = r[c->second] == r[c->third]; break;
        case READ:
            lock(c->second);
            r[c->first] = objects[c->second * WORDS_APART];
            unlock(c->second);
            keep_read(thread, r[c->first]);
            break;
        case WRITE:
            lock(c->first);
            objects[c->first * WORDS_APART] = r[c->second];
            unlock(c->first);
            break;
        case WHILE:
        case IF:
            if (!r[c->first]) at = c->second;
            break;
        case END: at = c->first; break;
        case NOTHING: break;
        }
    }
    return NULL;
}

// The commands of a script that this program is called with: those of bench/run.
static struct command command_of(char **words, struct thread *thread, int *open, int *depth) {
    static const char *calculations[] = {"add", "sub", "mul", "xor", "less", "same"};
    struct command c = {.operation = NOTHING};
    const char *word = words[0];
    if (!strcmp(word, "set")) {
        c = (struct command){.operation = SET, .first = register_of(words[1]), .number = strtoull(words[2], NULL, 10)};
    } else if (!strcmp(word, "copy")) {
        c = (struct command){.operation = COPY, .first = register_of(words[1]), .second = register_of(words[2])};
    } else if (!strcmp(word, "read")) {
        c = (struct command){.operation = READ, .first = register_of(words[1]), .second = object_of(words[2])};
    } else if (!strcmp(word, "write")) {
        c = (struct command){.operation = WRITE, .first = object_of(words[1]), .second = register_of(words[2])};
    } else if (!strcmp(word, "while") || !strcmp(word, "if")) {
        c = (struct command){.operation = *word == 'w' ? WHILE : IF, .first = register_of(words[1])};
        open[(*depth)++] = thread->count;
    } else if (!strcmp(word, "end")) {
        int opener = open[--*depth];
        thread->commands[opener].second = thread->count + 1;
        int back = thread->commands[opener].operation == WHILE ? opener : thread->count + 1;
        c = (struct command){.operation = END, .first = back};
    } else if (strcmp(word, "safe") && strcmp(word, "pause") && strcmp(word, "region")) {
        int which = 0;
        while (strcmp(calculations[which], word)) which++;
        c = (struct command){.operation = ADD + which,
                             .first = register_of(words[1]),
                             .second = register_of(words[2]),
                             .third = register_of(words[3])};
    }
    return c;
}

static void read_script(FILE *file) {
    char line[256];
    int open[MAX_OPEN], depth = 0;
    while (fgets(line, sizeof line, file)) {
        char *words[8];
        int count = 0;
        for (char *word = strtok(line, " \n"); word; word = strtok(NULL, " \n")) words[count++] = word;
        if (!count) continue;
        if (!strcmp(words[0], "fuel")) {
            fuel = atoi(words[1]);
        } else if (!strcmp(words[0], "object")) {
            names[object_count] = strdup(words[1]);
            pthread_mutex_init(&locks[object_count], NULL);
            objects[object_count++ * WORDS_APART] = strtoull(words[2], NULL, 10);
        } else if (!strcmp(words[0], "thread")) {
            thread_count++;
        } else {
            struct thread *thread = &threads[thread_count - 1];
            if (thread->count == thread->room) {
                thread->room = thread->room ? 2 * thread->room : 64;
                thread->commands = realloc(thread->commands, sizeof(struct command) * thread->room);
            }
            struct command c = command_of(words, thread, open, &depth);
            thread->commands[thread->count++] = c;
        }
    }
}

// What is said is not what is measured: it is made quickly, and is never instrumented.
__attribute__((no_sanitize("thread"))) static char *numbers(char *end, const uint64_t *values, int count) {
    for (int place = 0; place < count; place++) {
        char digits[20];
        int many = 0;
        uint64_t rest = values[place];
        do digits[many++] = '0' + rest % 10;
        while (rest /= 10);
        *end++ = ' ';
        while (many) *end++ = digits[--many];
    }
    return end;
}

static void say_outcome(void) {
    size_t room = 64 * (size_t)(object_count + thread_count);
    for (int place = 0; place < thread_count; place++) room += 21 * (size_t)threads[place].reads;
    char *text = malloc(room), *end = text;
    for (int place = 0; place < thread_count; place++) {
        end += sprintf(end, "thread %d:", place);
        end = numbers(end, threads[place].values_read, threads[place].reads);
        *end++ = '\n';
    }
    for (int object = 0; object < object_count; object++)
        end += sprintf(end, "%.32s %llu\n", names[object], (unsigned long long)objects[object * WORDS_APART]);
    fwrite(text, 1, end - text, stdout);
}

int main(int count, char **words) {
    if (count != 3) return 2;
    is_locked = !strcmp(words[1], "locked");
    FILE *file = fopen(words[2], "r");
    if (!file) return 2;
    read_script(file);
    pthread_t started[MAX_THREADS];
    for (int place = 0; place < thread_count; place++)
        pthread_create(&started[place], NULL, run_thread, &threads[place]);
    for (int place = 0; place < thread_count; place++) pthread_join(started[place], NULL);
    say_outcome();
    return 0;
}
