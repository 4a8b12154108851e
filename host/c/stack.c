/*
 * Measures the stack that each function takes for a table, its circuit on n
 * qubits and a start word:
 *
 *     $ stack pairs.foq 3 0
 *     foq_verdict 8900
 *     ..
 *
 * A call is made on a thread that has FOQ_ENOUGH_STACK bytes of stack and not
 * one more. What it takes is counted down to the lowest byte that it overwrites,
 * from the lowest one that a thread overwrites which calls nothing.
 */
#define _DEFAULT_SOURCE
#include <pthread.h>
#include <string.h>
#include <sys/mman.h>

#include "foq.h"
#include "program.h"

#define PAINT 0xA5
#define FENCE 65536u

static uint8_t table[FOQ_MOST_CIRCUIT];
static uint8_t circuit[FOQ_MOST_CIRCUIT];
/* For the inverse, which is as long as its table. */
static uint8_t room[sizeof table];
static uint8_t text[FOQ_MOST_LISTING];
static uint8_t workspace[FOQ_LEAST_WORKSPACE];
static size_t table_length, circuit_length;
static uint32_t n;
static uint64_t word;

static void *nothing(void *unused)
{
    return unused;
}

static void *verdict(void *unused)
{
    foq_verdict(table, table_length, n, workspace, sizeof workspace);
    return unused;
}

static void *run(void *unused)
{
    foq_run(table, table_length, n, word, workspace, sizeof workspace);
    return unused;
}

static void *compile(void *unused)
{
    circuit_length = foq_compile(table, table_length, n, circuit, sizeof circuit,
                                 workspace, sizeof workspace)
                         .value;
    return unused;
}

static void *inverse(void *unused)
{
    foq_inverse(table, table_length, n, room, sizeof room);
    return unused;
}

static void *circuit_read(void *unused)
{
    foq_circuit_read(circuit, circuit_length);
    return unused;
}

static void *circuit_run(void *unused)
{
    foq_circuit_run(circuit, circuit_length, word);
    return unused;
}

/* In one walk, and for a text that is just long enough. */
static void *circuit_list(void *unused)
{
    foq_answer listing =
        foq_circuit_list(circuit, circuit_length, text, sizeof text);
    foq_circuit_list(circuit, circuit_length, text, listing.value);
    return unused;
}

static void *page_band(void *unused)
{
    foq_page_band(circuit, circuit_length, 0, text, sizeof text);
    return unused;
}

/* A stack with a fence below it: what goes further down stops the program. */
static uint8_t *new_stack(void)
{
    void *fence = mmap(NULL, FENCE + FOQ_ENOUGH_STACK, PROT_READ | PROT_WRITE,
                       MAP_PRIVATE | MAP_ANONYMOUS, -1, 0);
    expect(fence != MAP_FAILED && mprotect(fence, FENCE, PROT_NONE) == 0,
           "no memory");
    return (uint8_t *)fence + FENCE;
}

/* The bytes of the stack down to the lowest one that a call overwrites. */
static size_t overwritten(uint8_t *stack, void *(*call)(void *))
{
    pthread_attr_t attributes;
    pthread_t thread;
    memset(stack, PAINT, FOQ_ENOUGH_STACK);
    expect(pthread_attr_init(&attributes) == 0 &&
               pthread_attr_setstack(&attributes, stack, FOQ_ENOUGH_STACK) == 0 &&
               pthread_create(&thread, &attributes, call, NULL) == 0 &&
               pthread_join(thread, NULL) == 0 &&
               pthread_attr_destroy(&attributes) == 0,
           "no thread");
    size_t untouched = 0;
    while (untouched < FOQ_ENOUGH_STACK && stack[untouched] == PAINT)
        untouched++;
    return FOQ_ENOUGH_STACK - untouched;
}

int main(int count, char **arguments)
{
    static const struct {
        const char *name;
        void *(*call)(void *);
    } functions[] = {{"foq_verdict", verdict},
                     {"foq_run", run},
                     {"foq_compile", compile},
                     {"foq_inverse", inverse},
                     {"foq_circuit_read", circuit_read},
                     {"foq_circuit_run", circuit_run},
                     {"foq_circuit_list", circuit_list},
                     {"foq_page_band", page_band}};
    uint64_t qubits;
    if (count != 4 || !read_number(arguments[2], UINT32_MAX, &qubits) ||
        !read_number(arguments[3], UINT64_MAX, &word)) {
        fputs("usage: stack TABLE N WORD\n", stderr);
        return EXIT_FAILURE;
    }
    n = (uint32_t)qubits;
    table_length = read_file(arguments[1], table, sizeof table);
    uint8_t *stack = new_stack();
    size_t idle = overwritten(stack, nothing);
    for (size_t i = 0; i < sizeof functions / sizeof *functions; i++)
        printf("%s %zu\n", functions[i].name,
               overwritten(stack, functions[i].call) - idle);
    return EXIT_SUCCESS;
}
