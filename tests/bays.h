// Four bays on one net in plain C, to compare the program baytry with. Made from document 01 and the requests' words alone.
#ifndef BAYS_H
#define BAYS_H

#include <stddef.h>
#include <stdint.h>
#include <stdio.h>

enum { BAYS = 4, ALLOWANCE = 1048576 };

// The refusals of the calls on a record: the net value, the bay's state or the turn, the ends, the bay's allowance, the number of the bay.
enum { BAD_NET = 12, BAD_STATE = 13, BAD_ENDS = 14, ALLOWANCE_USED = 16, NO_BAY = 21 };

// A case is a file of numbers, 4 bytes each, most significant first, with a form among them: how many bytes the form has, how many words and ends there are,
// the form, the words, the ends; then commands of three numbers each.
enum { CASE_ROOM = 4096, HEADER_BYTES = 12, COMMAND_BYTES = 12, MOST_WORDS = 256, MOST_ENDS = 64 };

// A command up to 255 steps the bay of that number with an offer and a ready mask. The others: a fresh record; the net's channel count; a call of next, with a
// mask of the bays that want a cycle and how many ends are lent to it at most; the turn; for each bay, its number added, the count, the word register of a
// block, its marks, and its offer and ready mask for later calls of next. Other numbers do nothing.
enum { LAST_STEP = 255, FRESH_RECORD = 256, SET_CHANNELS = 257, NEXT = 258, SET_TURN = 259, SET_COUNT = 260, SET_WORD = 264, SET_MARKS = 268 };
enum { SET_MASKS = 272, NO_COMMAND = 276 };

// What baytry prints for a case.
void print_case(FILE *out, const uint8_t *bytes, size_t len);

#endif
