// Loads or exports a file by the library, in a thread with a stack of 256 KiB, for tests/srecord-speed:
//     srecord_speed load TEXT IMAGE LENGTH      srecord_speed export IMAGE TEXT
// Prints the refusal's number, the line or the length that comes with it, the seconds of the call alone and the bytes of stack used.
#include <pthread.h>
#include <stdint.h>
#include <stdio.h>
#include <stdlib.h>
#include <string.h>
#include <sys/mman.h>
#include <sys/stat.h>
#include <time.h>

// A slice is a pointer and a length.
uint32_t lent_load(const uint8_t *text, size_t text_length, uint8_t *memory, size_t memory_length, size_t *line);
uint32_t lent_export(const uint8_t *memory, size_t memory_length, uint8_t *buffer, size_t buffer_length, size_t *length);

enum { STACK = 256 * 1024, GUARD = 4096, UNUSED = 0xA5 };

struct call {
    int load;
    uint8_t *from, *to;
    size_t from_length, to_length, told;
    uint32_t refusal;
    double seconds;
    uint8_t *top; // the stack's place where the call was made
};

static void need(int holds, const char *what) {
    if (!holds) {
        perror(what);
        exit(1);
    }
}

static void *read_file(const char *name, size_t *length) {
    struct stat about;
    FILE *file = fopen(name, "rb");
    need(file && fstat(fileno(file), &about) == 0, name);
    *length = about.st_size;
    void *bytes = malloc(*length);
    need(bytes && fread(bytes, 1, *length, file) == *length, name);
    fclose(file);
    return bytes;
}

static void write_file(const char *name, const void *bytes, size_t length) {
    FILE *file = fopen(name, "wb");
    need(file && fwrite(bytes, 1, length, file) == length && fclose(file) == 0, name);
}

static double now(void) {
    struct timespec at;
    clock_gettime(CLOCK_MONOTONIC, &at);
    return at.tv_sec + at.tv_nsec / 1e9;
}

static void *called(void *given) {
    struct call *call = given;
    call->top = __builtin_frame_address(0);
    double start = now();
    call->refusal = (call->load ? lent_load : lent_export)(call->from, call->from_length, call->to, call->to_length, &call->told);
    call->seconds = now() - start;
    return NULL;
}

// Makes the call in a thread whose stack is marked, and answers how much of it, below the thread's own frame, was written to.
static size_t in_thread(struct call *call) {
    pthread_attr_t attributes;
    pthread_t thread;
    uint8_t *stack = mmap(NULL, GUARD + STACK, PROT_READ | PROT_WRITE, MAP_PRIVATE | MAP_ANONYMOUS, -1, 0);
    need(stack != MAP_FAILED && mprotect(stack, GUARD, PROT_NONE) == 0, "stack");
    memset(stack + GUARD, UNUSED, STACK);
    pthread_attr_init(&attributes);
    pthread_attr_setstack(&attributes, stack + GUARD, STACK);
    need(pthread_create(&thread, &attributes, called, call) == 0, "thread");
    pthread_join(thread, NULL);
    uint8_t *lowest = stack + GUARD;
    while (lowest < call->top && *lowest == UNUSED)
        lowest++;
    return call->top - lowest;
}

int main(int count, char **words) {
    struct call call = {0};
    call.load = count == 5 && strcmp(words[1], "load") == 0;
    if (!call.load && (count != 4 || strcmp(words[1], "export") != 0)) {
        fprintf(stderr, "usage: %s load TEXT IMAGE LENGTH, or export IMAGE TEXT\n", words[0]);
        return 2;
    }
    call.from = read_file(words[2], &call.from_length);
    // A line of 16 bytes or fewer has 47 letters or fewer, and the closing one 15.
    call.to_length = call.load ? strtoul(words[4], NULL, 10) : (call.from_length + 15) / 16 * 47 + 15;
    call.to = calloc(call.to_length, 1);
    need(call.to != NULL, "memory");
    size_t stack = in_thread(&call);
    write_file(words[3], call.to, call.load ? call.to_length : call.told);
    printf("%u %zu %.3f %zu\n", call.refusal, call.told, call.seconds, stack);
    return call.refusal != 0;
}
