/*
 * Shows what a table does on n qubits, from a start word: the verdict, the run,
 * the inverse, which is the table that takes the run back, in hexadecimal, and
 * the circuit with its own run, wire 1 leftmost.
 *
 *     $ foq_tool table pairs.foq 3 0 pairs.circuit
 *     accepted
 *     end word 4
 *     inverse 01 01 08 05 01 00 ..
 *     circuit of 49 bytes
 *     3 qubits, 3 ancillas, 9 gates
 *     3 3 15
 *     1 X 4
 *     2 X 5 -1 -2 +4
 *     ..
 *     9 X 4
 *     wires 001000
 *
 * The last argument, which may be left out, is a file for the circuit's bytes.
 * From then on the circuit speaks for itself:
 *
 *     $ foq_tool circuit pairs.circuit 0
 *     3 qubits, 3 ancillas, 9 gates
 *     ..
 *     $ foq_tool page pairs.circuit
 *        1----o---+---------------+---o-------
 *     ..
 *
 * And the inverse can be kept, to be shown as a table itself:
 *
 *     $ foq_tool inverse adder.foq 4 subtractor.foq
 *     inverse 01 01 08 05 01 00 ..
 *
 * The listing, which begins with n, the ancillas and the size, is printed as
 * foq_circuit_list gives it. Where a function refuses, the line is "refused" and
 * its number.
 */
#include <string.h>

#include "foq.h"
#include "program.h"

/* A record has at most a map, a kind, eight removals and a number. */
#define LONGEST_RECORD (2 + 1 + 3 * FOQ_MOST_REMOVALS + 3)

/* Of a longer table no more is looked at: one record too many, or bytes left. */
#define LONGEST_TABLE (2 + FOQ_MOST_RECORDS * LONGEST_RECORD + 2)

static uint8_t table[LONGEST_TABLE];
/* For the inverse, which is as long as its table. */
static uint8_t inverse_table[LONGEST_TABLE];
/* One byte more than a circuit can have: what is longer is refused too. */
static uint8_t circuit[FOQ_MOST_CIRCUIT + 1];
/* For a listing or, which is shorter, a band. */
static uint8_t text[FOQ_MOST_LISTING];
static uint8_t workspace[FOQ_LEAST_WORKSPACE];

/* Says whether an answer is a success; otherwise prints the refusal. */
static int succeeds(uint32_t number)
{
    if (number != FOQ_SUCCESS)
        printf("refused %" PRIu32 "\n", number);
    return number == FOQ_SUCCESS;
}

static void print_wires(const foq_block *block)
{
    fputs("wires ", stdout);
    for (int place = 0; place < block->data + block->ancillas; place++)
        putchar(block->bits[place / 8] >> (place % 8) & 1 ? '1' : '0');
    putchar('\n');
}

/* Prints a circuit's header and its listing. */
static void show_gates(size_t length)
{
    foq_circuit header = foq_circuit_read(circuit, length);
    if (!succeeds(header.number))
        return;
    printf("%" PRIu32 " qubits, %" PRIu32 " ancillas, %" PRIu32 " gates\n",
           header.qubits, header.ancillas, header.gates);
    foq_answer listing = foq_circuit_list(circuit, length, text, sizeof text);
    if (succeeds(listing.number))
        fwrite(text, 1, listing.value, stdout);
}

/* Prints a circuit and its wires at the end. */
static void show_circuit(size_t length, uint64_t word)
{
    show_gates(length);
    foq_block block = foq_circuit_run(circuit, length, word);
    if (succeeds(block.number))
        print_wires(&block);
}

/* Prints a circuit's page, band by band. */
static void show_page(size_t length)
{
    uint64_t place = 0;
    do {
        foq_band band =
            foq_page_band(circuit, length, place, text, sizeof text);
        if (!succeeds(band.number))
            return;
        fwrite(text, 1, band.length, stdout);
        place = band.next;
    } while (place != 0);
}

static void write_file(const char *name, const uint8_t *bytes, size_t length)
{
    FILE *file = fopen(name, "wb");
    if (file == NULL || fwrite(bytes, 1, length, file) != length ||
        fclose(file) != 0)
        fail(name);
}

/* Prints the inverse, and keeps it in a file, if any. */
static void show_inverse(size_t length, uint32_t n, const char *file)
{
    foq_answer inverse =
        foq_inverse(table, length, n, inverse_table, sizeof inverse_table);
    if (!succeeds(inverse.number))
        return;
    fputs("inverse", stdout);
    for (size_t place = 0; place < inverse.value; place++)
        printf(" %02x", inverse_table[place]);
    putchar('\n');
    if (file != NULL)
        write_file(file, inverse_table, inverse.value);
}

/*
 * Prints the verdict, the run, the inverse and the circuit, and keeps the circuit
 * in a file, if any.
 */
static void show_table(size_t length, uint32_t n, uint64_t word, const char *file)
{
    if (succeeds(foq_verdict(table, length, n, workspace, sizeof workspace)))
        puts("accepted");
    foq_answer run =
        foq_run(table, length, n, word, workspace, sizeof workspace);
    if (succeeds(run.number))
        printf("end word %" PRIu64 "\n", run.value);
    show_inverse(length, n, NULL);
    foq_answer compiled = foq_compile(table, length, n, circuit, sizeof circuit,
                                      workspace, sizeof workspace);
    if (!succeeds(compiled.number))
        return;
    printf("circuit of %" PRIu64 " bytes\n", compiled.value);
    show_circuit(compiled.value, word);
    if (file != NULL)
        write_file(file, circuit, compiled.value);
}

int main(int count, char **arguments)
{
    uint64_t n, word;
    if ((count == 5 || count == 6) && strcmp(arguments[1], "table") == 0 &&
        read_number(arguments[3], UINT32_MAX, &n) &&
        read_number(arguments[4], UINT64_MAX, &word)) {
        size_t length = read_file(arguments[2], table, sizeof table);
        show_table(length, (uint32_t)n, word, arguments[5]);
        return EXIT_SUCCESS;
    }
    if ((count == 4 || count == 5) && strcmp(arguments[1], "inverse") == 0 &&
        read_number(arguments[3], UINT32_MAX, &n)) {
        size_t length = read_file(arguments[2], table, sizeof table);
        show_inverse(length, (uint32_t)n, arguments[4]);
        return EXIT_SUCCESS;
    }
    if (count == 4 && strcmp(arguments[1], "circuit") == 0 &&
        read_number(arguments[3], UINT64_MAX, &word)) {
        show_circuit(read_file(arguments[2], circuit, sizeof circuit), word);
        return EXIT_SUCCESS;
    }
    if (count == 3 && strcmp(arguments[1], "page") == 0) {
        show_page(read_file(arguments[2], circuit, sizeof circuit));
        return EXIT_SUCCESS;
    }
    fputs("usage: foq_tool table FILE N WORD [CIRCUIT]\n"
          "       foq_tool inverse FILE N [TABLE]\n"
          "       foq_tool circuit FILE WORD\n"
          "       foq_tool page FILE\n",
          stderr);
    return EXIT_FAILURE;
}
