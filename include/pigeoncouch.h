/* The scheduler's check of a day's file. Link libscheduler.a (examples/Makefile builds it and has the line). */
#ifndef PIGEONCOUCH_H
#define PIGEONCOUCH_H

#include <stddef.h>
#include <stdint.h>

#ifdef __cplusplus
extern "C" {
#endif

/*
 * Checks a day's file for parties of these kind letters (one byte each: S sells, B buys; party 0 first).
 * Returns 0 where the file is right, else the number of the refusal: 2 (not 1 to 64 letters), 3 (a letter that is neither S nor B),
 * 11 to 15 (the file's structure), then 16 to 18 (its records), whichever comes first.
 * Any bytes and any lengths may be given; with a length of 0 the pointer is not read. Nothing is written and nothing is kept.
 */
uint32_t pigeoncouch_check_day(const uint8_t *file, size_t file_len, const uint8_t *letters, size_t letters_len);

#ifdef __cplusplus
}
#endif

#endif
