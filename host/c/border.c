/*
 * Calls every function once for each case on standard input. A case is a line
 * "N WORD ROOM WORKSPACE INVERSE PLACE TEXT LISTING LENGTH" and that many bytes,
 * which are taken as a table and as a circuit. ROOM is the length of a room for a
 * circuit, INVERSE of one for an inverse; TEXT is the length of a text for a band,
 * LISTING of one for a listing. What is printed is a line
 *
 *     verdict | number end-word | number length | number length |
 *     number qubits ancillas gates | number data ancillas bits-in-hexadecimal |
 *     number length next | number length
 *
 * and behind it the bytes that compile wrote, those of an inverse, those of a band
 * and those of a listing.
 *
 * A slice stands just before a fence, so that reading or writing past its end
 * stops the program, and so does writing into the table or circuit. An empty
 * slice is null. The bytes before a slice, a refused room or text, a text that
 * is too short for its band, and what follows a circuit, an inverse, a band or a
 * listing must stay as they are, a workspace must come back as zeros: otherwise
 * the program stops too.
 */
#define _DEFAULT_SOURCE
#include <string.h>
#include <sys/mman.h>

#include "foq.h"
#include "program.h"

/* The longest slice that is not a text for a listing, and a fence's length. */
#define MOST 131072u
#define FENCE 65536u

#define DIRT 0xA5

/* Where the memory for a slice begins, and where it ends at a fence. */
typedef struct {
    uint8_t *start, *end;
} memory;

static memory for_bytes, for_room, for_workspace, for_inverse, for_band,
    for_listing;

/* Memory of this length before a fence. */
static memory before_a_fence(size_t most)
{
    void *start = mmap(NULL, most + FENCE, PROT_READ | PROT_WRITE,
                       MAP_PRIVATE | MAP_ANONYMOUS, -1, 0);
    expect(start != MAP_FAILED, "no memory");
    memory all = {(uint8_t *)start, (uint8_t *)start + most};
    expect(mprotect(all.end, FENCE, PROT_NONE) == 0, "no fence");
    return all;
}

/* The last bytes before a fence, among dirt. An empty slice is null. */
static uint8_t *lent(memory all, size_t length)
{
    memset(all.start, DIRT, (size_t)(all.end - all.start));
    return length == 0 ? NULL : all.end - length;
}

/*
 * Says whether all bytes of a range are this one: the first is, and every other
 * one is as the one before it.
 */
static int all_are(const uint8_t *from, const uint8_t *to, int byte)
{
    return from == to ||
           (*from == byte && memcmp(from, from + 1, (size_t)(to - from) - 1) == 0);
}

/* A workspace comes back as zeros, and nothing before it has changed. */
static void expect_workspace(size_t length)
{
    const uint8_t *start = for_workspace.end - length;
    expect(all_are(start, for_workspace.end, 0), "a workspace is not zero");
    expect(all_are(for_workspace.start, start, DIRT), "bytes before it changed");
}

/* So much is written into a room or text, and nothing beside that has changed. */
static void expect_written(memory all, size_t length, size_t written)
{
    const uint8_t *start = all.end - length;
    expect(written <= length, "more is written than there is room for");
    expect(all_are(start + written, all.end, DIRT), "a slice's rest changed");
    expect(all_are(all.start, start, DIRT), "bytes before a slice changed");
}

static void call_verdict(const uint8_t *table, size_t length, uint32_t n,
                         size_t space)
{
    uint32_t number =
        foq_verdict(table, length, n, lent(for_workspace, space), space);
    expect_workspace(space);
    printf("%" PRIu32, number);
}

static void call_run(const uint8_t *table, size_t length, uint32_t n,
                     uint64_t word, size_t space)
{
    foq_answer answer =
        foq_run(table, length, n, word, lent(for_workspace, space), space);
    expect_workspace(space);
    printf(" | %" PRIu32 " %" PRIu64, answer.number, answer.value);
}

/* Gives the length of the circuit, which then stands in the room. */
static size_t call_compile(const uint8_t *table, size_t length, uint32_t n,
                           size_t room, size_t space)
{
    foq_answer answer = foq_compile(table, length, n, lent(for_room, room), room,
                                    lent(for_workspace, space), space);
    expect_workspace(space);
    expect_written(for_room, room, answer.value);
    printf(" | %" PRIu32 " %" PRIu64, answer.number, answer.value);
    return answer.value;
}

/* Gives the length of the inverse, which then stands in its room. */
static size_t call_inverse(const uint8_t *table, size_t length, uint32_t n,
                           size_t room)
{
    foq_answer answer =
        foq_inverse(table, length, n, lent(for_inverse, room), room);
    expect_written(for_inverse, room, answer.value);
    printf(" | %" PRIu32 " %" PRIu64, answer.number, answer.value);
    return answer.value;
}

static void call_circuit(const uint8_t *circuit, size_t length, uint64_t word)
{
    foq_circuit header = foq_circuit_read(circuit, length);
    foq_block block = foq_circuit_run(circuit, length, word);
    printf(" | %" PRIu32 " %" PRIu32 " %" PRIu32 " %" PRIu32, header.number,
           header.qubits, header.ancillas, header.gates);
    printf(" | %" PRIu32 " %d %d ", block.number, block.data, block.ancillas);
    for (unsigned i = 0; i < FOQ_BLOCK_LENGTH; i++)
        printf("%02x", block.bits[i]);
}

/* Gives the length of what then stands in the text: the band, or nothing. */
static size_t call_page_band(const uint8_t *circuit, size_t length,
                             uint64_t place, size_t text)
{
    foq_band band =
        foq_page_band(circuit, length, place, lent(for_band, text), text);
    size_t put = band.length <= text ? band.length : 0;
    expect_written(for_band, text, put);
    printf(" | %" PRIu32 " %" PRIu64 " %" PRIu64, band.number, band.length,
           band.next);
    return put;
}

/* Gives the length of the listing, which then stands in the text. */
static size_t call_circuit_list(const uint8_t *circuit, size_t length,
                                size_t text)
{
    foq_answer answer =
        foq_circuit_list(circuit, length, lent(for_listing, text), text);
    expect_written(for_listing, text, answer.value);
    printf(" | %" PRIu32 " %" PRIu64 "\n", answer.number, answer.value);
    return answer.value;
}

/* Reads the bytes of a case, which then can only be read. */
static const uint8_t *read_bytes(size_t length)
{
    uint8_t *start = for_bytes.start;
    expect(mprotect(start, MOST, PROT_READ | PROT_WRITE) == 0, "no memory");
    uint8_t *bytes = lent(for_bytes, length);
    expect(fread(for_bytes.end - length, 1, length, stdin) == length,
           "a case stops too soon");
    expect(mprotect(start, MOST, PROT_READ) == 0, "no memory");
    return bytes;
}

int main(void)
{
    uint32_t n;
    uint64_t word, place;
    size_t room, space, inverse, text, listing, length;
    for_bytes = before_a_fence(MOST);
    for_room = before_a_fence(MOST);
    for_workspace = before_a_fence(MOST);
    for_inverse = before_a_fence(MOST);
    for_band = before_a_fence(MOST);
    for_listing = before_a_fence(FOQ_MOST_LISTING);
    while (scanf("%" SCNu32 " %" SCNu64 " %zu %zu %zu %" SCNu64 " %zu %zu %zu", &n,
                 &word, &room, &space, &inverse, &place, &text, &listing,
                 &length) == 9) {
        expect(getchar() == '\n' && room <= MOST && space <= MOST &&
                   inverse <= MOST && text <= MOST &&
                   listing <= FOQ_MOST_LISTING && length <= MOST,
               "a case is not one");
        const uint8_t *bytes = read_bytes(length);
        call_verdict(bytes, length, n, space);
        call_run(bytes, length, n, word, space);
        size_t compiled = call_compile(bytes, length, n, room, space);
        size_t inverted = call_inverse(bytes, length, n, inverse);
        call_circuit(bytes, length, word);
        size_t drawn = call_page_band(bytes, length, place, text);
        size_t listed = call_circuit_list(bytes, length, listing);
        fwrite(for_room.end - room, 1, compiled, stdout);
        fwrite(for_inverse.end - inverse, 1, inverted, stdout);
        fwrite(for_band.end - text, 1, drawn, stdout);
        fwrite(for_listing.end - listing, 1, listed, stdout);
    }
    expect(feof(stdin), "a case is not one");
    return EXIT_SUCCESS;
}
