/*
 * foq.h: the functions of libfoq.a, for C11 and C++.
 *
 * A table of bytes holds a FOQ program. foq_verdict says whether it is accepted,
 * foq_run runs it from a basis state, foq_inverse writes the table that takes it
 * back, and foq_compile translates it into a circuit, which foq_circuit_read
 * looks through, foq_circuit_run runs, foq_circuit_list lists and foq_page_band
 * draws. Here a program that flips qubit 2 of three is run from the word 5, and
 * so is its circuit:
 *
 *     #include <stdio.h>
 *     #include "foq.h"
 *
 *     static const uint8_t table[] = {FOQ_TABLE_EDITION, 0, FOQ_MAP_A,
 *                                     FOQ_KIND_NOT, FOQ_BASE_CONSTANT, 2, 0};
 *     static uint8_t room[FOQ_MOST_CIRCUIT];
 *     static uint8_t workspace[FOQ_LEAST_WORKSPACE];
 *
 *     int main(void)
 *     {
 *         foq_answer run = foq_run(table, sizeof table, 3, 5, workspace,
 *                                  sizeof workspace);
 *         foq_answer circuit =
 *             foq_compile(table, sizeof table, 3, room, sizeof room, workspace,
 *                         sizeof workspace);
 *         if (run.number != FOQ_SUCCESS || circuit.number != FOQ_SUCCESS)
 *             return 1;
 *         foq_block block = foq_circuit_run(room, circuit.value, 5);
 *         printf("%d and %d\n", (int)run.value, block.bits[0]);
 *         return 0;
 *     }
 *
 * It prints "7 and 7".
 *
 * Each function takes numbers and slices of bytes, and has an answer for every
 * number and every content of a slice: number FOQ_SUCCESS and a result, or the
 * number of one refusal and otherwise zeros. What is said of an answer here is
 * proved of the code, for every input.
 *
 * A slice is two arguments, a pointer and a length in bytes. The caller holds
 * to this, which no function can test:
 *
 *   - The pointer leads to that many bytes of one object, which may be read
 *     during the call, those of a room, a text or a workspace written too, and
 *     which nothing else changes meanwhile.
 *   - A slice of length 0 may have a null pointer.
 *   - No two slices of one call overlap.
 *
 * A workspace may hold anything before the call. After it all of its bytes are
 * zero, whatever its length and whatever the answer.
 *
 * No function keeps anything from one call to the next, takes memory from the
 * heap or writes anywhere but into its answer, the room, the text and the
 * workspace. Calls from several threads at the same time are allowed, each with
 * its own room, text and workspace.
 *
 * FOQ_ENOUGH_STACK bytes of stack are enough for a call. That is not proved but
 * measured, on x86-64, at the deepest tables that could be made:
 *
 *     foq_verdict       40 KiB
 *     foq_run          109 KiB
 *     foq_compile      169 KiB
 *     foq_inverse       40 KiB
 *     foq_circuit_read   1 KiB
 *     foq_circuit_run    1 KiB
 *     foq_circuit_list   1 KiB
 *     foq_page_band      6 KiB
 */
#ifndef FOQ_H
#define FOQ_H

#include <stddef.h>
#include <stdint.h>

/* Success. */
#define FOQ_SUCCESS 0u

/* Refusals from the input. */
#define FOQ_TABLE_STOPS 1u      /* the table stops too soon */
#define FOQ_WRONG_EDITION 2u    /* the table's edition is not FOQ_TABLE_EDITION */
#define FOQ_MANY_PROCEDURES 3u  /* more than FOQ_MOST_PROCEDURES procedures */
#define FOQ_WRONG_KIND 4u       /* kind unknown, or condition and statement exchanged */
#define FOQ_WRONG_MAP 5u        /* a map that the record's kind does not permit */
#define FOQ_WRONG_FIELD 6u      /* a wrong removal count, base or procedure byte */
#define FOQ_TOO_DEEP 7u         /* a tree too deep, or too many records */
#define FOQ_BYTES_LEFT 8u       /* bytes left over behind the last body */
#define FOQ_WRONG_QUBITS 9u     /* n is not 1 to FOQ_MOST_QUBITS */
#define FOQ_NO_REMOVAL 10u      /* a recursive call without removal */
#define FOQ_TOO_WIDE 11u        /* a body of width over 1 */
#define FOQ_ACCESS_FAULT 12u    /* a position outside the list, or a closed qubit touched */
#define FOQ_HIGH_BIT 13u        /* a start word with a bit at n or above */
#define FOQ_NOT_WELL_FORMED 14u /* the circuit is not well formed */

/* Refusals from the state. */
#define FOQ_SHORT_WORKSPACE 21u /* a workspace shorter than FOQ_LEAST_WORKSPACE */
#define FOQ_MANY_WIRES 22u      /* a wire number above FOQ_MOST_WIRES would be taken */
#define FOQ_NO_ROOM 23u         /* the header, the next gate or a listing does not fit */
#define FOQ_SHORT_TABLE_ROOM 24u /* a room shorter than the table that is to be inverted */

/*
 * A table is its edition, the number p of procedures, then the main statement
 * and the bodies of procedures 1 to p. Each of these is a tree of records in
 * preorder: a record's children follow it, first child first.
 */
#define FOQ_TABLE_EDITION 1u
#define FOQ_MOST_PROCEDURES 16u
#define FOQ_MOST_RECORDS 255u
#define FOQ_MOST_DEPTH 32u /* records from the root of a tree down */

/*
 * A record is a map, a kind, then the fields whose bit stands in the map, in
 * this order. Removals are a count, 1 to FOQ_MOST_REMOVALS, and that many
 * numbers; a procedure is one byte, 1 to p.
 */
#define FOQ_MAP_REMOVALS 1u
#define FOQ_MAP_A 2u
#define FOQ_MAP_B 4u
#define FOQ_MAP_PROCEDURE 8u
#define FOQ_MOST_REMOVALS 8u

/*
 * A number is a base and a signed 16-bit constant, low byte first. FOQ_BASE_LEFT
 * counts, in a removal, what the removals in front of it in its record leave, and
 * in position a what all of them leave; that is 0 once the list is empty. In a
 * comparison, where nothing is removed, it is as FOQ_BASE_SIZE.
 */
#define FOQ_BASE_CONSTANT 0u /* the constant alone */
#define FOQ_BASE_SIZE 1u     /* added to the size of the procedure's whole list */
#define FOQ_BASE_LEFT 2u     /* added to the size of what the removals so far leave of it */

/* Statements. NOT, qcase and call may carry removals, no other kind may. */
#define FOQ_KIND_SKIP 0u
#define FOQ_KIND_NOT 1u      /* a: the position of the qubit that is flipped */
#define FOQ_KIND_SEQUENCE 2u /* two statements */
#define FOQ_KIND_IF 3u       /* a condition, then the statements for yes and no */
#define FOQ_KIND_QCASE 4u    /* a: a qubit's position; the statements for 0 and 1 */
#define FOQ_KIND_CALL 5u     /* a procedure */

/* Conditions. */
#define FOQ_KIND_GREATER 6u   /* a > b */
#define FOQ_KIND_AT_LEAST 7u  /* a >= b */
#define FOQ_KIND_EQUAL 8u     /* a = b */
#define FOQ_KIND_AND 9u       /* two conditions */
#define FOQ_KIND_OR 10u       /* two conditions */
#define FOQ_KIND_NEGATION 11u /* one condition */

/*
 * What a table means: main's list is qubits 1 to n, a procedure's list is what
 * the call hands it. Removals take positions, counted from 1, out of that whole
 * list, left to right, each from what the last one left; a position outside
 * empties the list. A call hands on what is left, and does nothing where nothing
 * is left. NOT and qcase touch the entry at position a of what is left. There a
 * position outside is an access fault, and so is a closed qubit: a qcase closes
 * its qubit in its two statements and in what they call. A fault counts in both
 * statements of a qcase, whichever a run takes, but only in the chosen statement
 * of an if, and only where calls from main lead.
 *
 * A call is recursive if the procedure that is called leads back, by one or more
 * calls, to the one that calls. Width: skip and NOT 0, a sequence the sum, if
 * and qcase the larger of their two, a recursive call 1, any other call 0.
 */

/*
 * A circuit is its edition, n, the ancilla count, the gate count in four bytes,
 * lowest first, then the gates; in all at most FOQ_MOST_CIRCUIT bytes.
 */
#define FOQ_CIRCUIT_EDITION 1u
#define FOQ_MOST_QUBITS 32u
#define FOQ_MOST_WIRES 255u /* n and the ancillas together */
#define FOQ_HEADER_LENGTH 7u
#define FOQ_MOST_CIRCUIT 65536u

/*
 * A gate is a map, the target wire, then what the map's bits say, in this
 * order: a count of wires, at least 1, and the wires that must hold 1; the same
 * for 0; the second wire of a swap, higher than the target. Without that bit it
 * is a NOT. Wires ascend in each list, and no wire occurs twice in a gate.
 *
 * A circuit is well formed if its edition is FOQ_CIRCUIT_EDITION, n is 1 to
 * FOQ_MOST_QUBITS, n and the ancilla count together are at most FOQ_MOST_WIRES,
 * its gates are as said here, over wires 1 to that sum and without any other map
 * bit, the gate count is true, no byte is left, and it has at most
 * FOQ_MOST_CIRCUIT bytes.
 */
#define FOQ_GATE_ON_ONE 1u
#define FOQ_GATE_ON_ZERO 2u
#define FOQ_GATE_SWAP 4u

/*
 * A text that is long enough for every band of a page, in bytes: on each row
 * four columns for the wire number, four for each of nineteen gates, and a
 * newline.
 */
#define FOQ_MOST_BAND 20655u

/*
 * A text that is long enough for every listing, in bytes: six for each byte of
 * the longest circuit.
 */
#define FOQ_MOST_LISTING 393216u

/* The bytes that hold the wires of a running circuit. */
#define FOQ_BLOCK_LENGTH 32u

/* The shortest workspace that is enough, in bytes. */
#define FOQ_LEAST_WORKSPACE 32768u

/* Stack for a call, in bytes. */
#define FOQ_ENOUGH_STACK 524288u

#ifdef __cplusplus
extern "C" {
#endif

/* A circuit's header: n, the ancilla count and the number of gates. */
typedef struct {
    uint32_t number;
    uint32_t qubits;
    uint32_t ancillas;
    uint32_t gates;
} foq_circuit;

/*
 * The wires of a circuit: n, the ancilla count and one bit for each wire. Data
 * wires are 1 to n, ancillas follow. Wire w is bit (w - 1) % 8 of byte
 * (w - 1) / 8, counted from 0 and from the lowest bit. Bits past the last wire
 * are zero.
 */
typedef struct {
    uint32_t number;
    uint8_t data;
    uint8_t ancillas;
    uint8_t bits[FOQ_BLOCK_LENGTH];
} foq_block;

/*
 * An answer with one value: the end word of a run, or the length of a circuit,
 * of an inverse table or of a listing.
 */
typedef struct {
    uint32_t number;
    uint64_t value;
} foq_answer;

/*
 * One band of a circuit's page: its length in bytes, and the place where the
 * next band begins, 0 behind the last one.
 */
typedef struct {
    uint32_t number;
    uint64_t length;
    uint64_t next;
} foq_band;

/*
 * Says whether a table is accepted for n qubits. Its answer is FOQ_SUCCESS or
 * the first refusal that applies:
 *
 *   - FOQ_WRONG_QUBITS;
 *   - of the first two bytes FOQ_TABLE_STOPS, FOQ_WRONG_EDITION and
 *     FOQ_MANY_PROCEDURES;
 *   - of each record, one after the other: FOQ_TABLE_STOPS for map and kind,
 *     FOQ_WRONG_KIND, FOQ_TOO_DEEP, FOQ_WRONG_MAP, then FOQ_TABLE_STOPS and
 *     FOQ_WRONG_FIELD for each byte of a field as it comes;
 *   - FOQ_BYTES_LEFT;
 *   - of all bodies FOQ_NO_REMOVAL, then FOQ_TOO_WIDE;
 *   - FOQ_ACCESS_FAULT, then FOQ_SHORT_WORKSPACE.
 */
uint32_t foq_verdict(const uint8_t *table, size_t length, uint32_t n,
                     uint8_t *workspace, size_t workspace_length);

/*
 * Runs a table on n qubits from a start word, qubit i being bit i - 1, and
 * gives the end word. It refuses what foq_verdict refuses, with the same
 * number; but before FOQ_SHORT_WORKSPACE comes FOQ_HIGH_BIT, for a word with a
 * bit at n or above, bits 32 to 63 too.
 *
 * A run follows one path through the table, and nothing refuses a long one.
 * Where procedures that call themselves call others that do, r of them one
 * inside the other, a run can make some n to the power r calls: a host that
 * takes tables from strangers runs them where it can stop them.
 */
foq_answer foq_run(const uint8_t *table, size_t length, uint32_t n,
                   uint64_t word, uint8_t *workspace, size_t workspace_length);

/*
 * Writes the circuit of a table on n qubits into the room, from its first byte
 * on, whatever stood there, and gives the circuit's length in bytes. What stood
 * behind it stays, and a refusal leaves the whole room as it was.
 * FOQ_MOST_CIRCUIT bytes are enough for every circuit; no byte of a longer room
 * past them is written.
 *
 * It refuses what foq_verdict refuses, with the same number. After that come
 * FOQ_NO_ROOM for a room without FOQ_HEADER_LENGTH bytes, and then the first of
 * the emission's steps that does not fit: FOQ_MANY_WIRES for an ancilla,
 * FOQ_NO_ROOM for a gate.
 *
 * On success the bytes are exactly the emission of document 01, "FOQ tables,
 * their runs and their merged circuits". For every start word below 2 to the
 * power n foq_circuit_run gives a block for them whose data wires hold the end
 * word that foq_run gives for the table, and whose every other bit is zero. The
 * ancilla count is the most ancillas in use at one time, and the number of gates
 * is within s * (4 + 2n) * (1 + p * r * (c * n)^r), where s counts the table's
 * NOT and call records, c its call records, p its procedures, and r is the most
 * classes of mutually reaching procedures on one line of falling calls from main
 * (a procedure that no cycle holds is a class by itself).
 *
 * The emission of a hostile table could be astronomical, but a call ends at the
 * first step that does not fit. Where it was measured, PAIRS on 32 qubits took a
 * hundredth of a millisecond and the slowest table that is known a fiftieth of a
 * second.
 */
foq_answer foq_compile(const uint8_t *table, size_t length, uint32_t n,
                       uint8_t *room, size_t room_length, uint8_t *workspace,
                       size_t workspace_length);

/*
 * Writes the inverse of a table into the room, from its first byte on: the table
 * with the two statements of every sequence turned round, in main and in every
 * procedure, and everything else kept. Gives its length in bytes, which is the
 * source table's. What stood behind it stays, and a refusal leaves the whole
 * room as it was. It takes no workspace.
 *
 * It refuses what foq_verdict refuses, with the same number, but for
 * FOQ_SHORT_WORKSPACE; then comes FOQ_SHORT_TABLE_ROOM, where the room is shorter
 * than the table. A room exactly as long is enough.
 *
 * On success the inverse is accepted for the same n, and takes each run back: for
 * every start word below 2 to the power n, foq_run on the inverse gives that word
 * from the end word that foq_run on the table gives, and the other way round.
 * The inverse of the inverse has exactly the bytes of the table.
 *
 * Calls stand in another order in it, so its circuit may take more or fewer
 * ancillas than the table's: foq_compile can refuse one of the two with
 * FOQ_MANY_WIRES and not the other.
 */
foq_answer foq_inverse(const uint8_t *table, size_t length, uint32_t n,
                       uint8_t *room, size_t room_length);

/*
 * Reads a circuit to its end. Gives its header if it is well formed, otherwise
 * FOQ_NOT_WELL_FORMED.
 */
foq_circuit foq_circuit_read(const uint8_t *circuit, size_t length);

/*
 * Runs a circuit from a start word: data wire i starts with bit i - 1 of the
 * word, every ancilla with 0, and the gates act in order. Gives the wires at
 * the end. Refuses with FOQ_NOT_WELL_FORMED exactly where foq_circuit_read
 * does, and otherwise with FOQ_HIGH_BIT a word with a bit at n or above, bits
 * 32 to 63 too.
 */
foq_block foq_circuit_run(const uint8_t *circuit, size_t length, uint64_t word);

/*
 * Puts the listing of a circuit into the text, from its first byte on, and gives
 * the listing's length in bytes. What stood behind it stays. The first line is
 * n, the ancilla count and the size, which is the number of gates, data wires
 * and ancillas together. Then each gate has a line: its number, counted from 1,
 * X for a NOT or S for a swap, the target or both swapped wires, lower first,
 * and the controls, wires ascending, + on 1 and - on 0. Every line ends with a
 * newline. PAIRS on three qubits has nine gates on six wires:
 *
 *     3 3 15
 *     1 X 4
 *     2 X 5 -1 -2 +4
 *     ..
 *     9 X 4
 *
 * It refuses with FOQ_NOT_WELL_FORMED exactly where foq_circuit_read does, and
 * otherwise with FOQ_NO_ROOM where the text is shorter than the listing. A
 * refusal leaves the whole text as it was.
 *
 * A text that is six times as long as the circuit is always long enough, so
 * FOQ_MOST_LISTING bytes are enough for every circuit. Such a text gets the
 * listing in one walk over the gates. For a shorter one the listing is measured
 * first, and the call takes up to twice as long.
 */
foq_answer foq_circuit_list(const uint8_t *circuit, size_t length,
                            uint8_t *text, size_t text_length);

/*
 * Puts one band of a circuit's page into the text. A page has a row for each
 * wire, which starts with the wire's number, right-aligned in four columns; each
 * gate takes four columns, a mark and three dashes. The mark is X for a NOT's
 * target, S for each swapped wire, + or o for a control on 1 or 0, | on other
 * rows between the gate's outermost wires, else a dash. Nineteen gates fill a
 * line of 80 columns; a longer circuit goes on in further bands, each with all
 * wires. Every line ends with a newline. The gates can be read off the page.
 *
 * Place 0 asks for the first band. Each band gives the place of the next, and
 * the last gives 0, so this, with a text of FOQ_MOST_BAND bytes, writes a page
 * that may be far longer than its circuit (35.6 megabytes at most):
 *
 *     uint64_t place = 0;
 *     do {
 *         foq_band band = foq_page_band(circuit, length, place, text,
 *                                       sizeof text);
 *         if (band.number != FOQ_SUCCESS)
 *             return 1;
 *         fwrite(text, 1, band.length, stdout);
 *         place = band.next;
 *     } while (place != 0);
 *
 * The text takes the whole band, and what stood behind it stays. A text that is
 * shorter than the band is left as it was: the number is FOQ_SUCCESS, and the
 * length says how many bytes it needs. FOQ_MOST_BAND bytes are always enough.
 *
 * At place 0 it reads the whole circuit and refuses with FOQ_NOT_WELL_FORMED
 * exactly where foq_circuit_read does. Of a circuit that it does not refuse
 * there, no place that a band gives is refused. At any other place it reads the
 * gates of one band from there on, over the header's n and ancilla count, and no
 * more of the circuit: it refuses with FOQ_NOT_WELL_FORMED where no such gates
 * stand, at places 1 to FOQ_HEADER_LENGTH, at and past the circuit's end, and
 * where the circuit is longer than FOQ_MOST_CIRCUIT. A refusal leaves the text as
 * it was.
 */
foq_band foq_page_band(const uint8_t *circuit, size_t length, uint64_t place,
                       uint8_t *text, size_t text_length);

#ifdef __cplusplus
}
#endif

#endif
