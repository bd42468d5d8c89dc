/* The trace judge, for callers in C. */
#ifndef DILAVONDRA_H
#define DILAVONDRA_H

#include <stddef.h>
#include <stdint.h>

/*
 * Judges a trace file under the model that some letters name.
 *
 * The letters are one of S C P FS FC FP AS AP AFS AFP, as bytes, with nothing before or behind them.
 * Answers 1 for legal and 0 for illegal; otherwise 1000 times the number of the refusal, and its place.
 * Letters that name no model are 17000, before anything in the file is looked at.
 *
 * Both ranges are only read, and only during the call. No memory is allocated, and nothing is kept between calls.
 * A length of 0 is allowed; the pointer must not be null all the same.
 */
uint32_t dilavondra_judge(const uint8_t *letters, size_t letters_length, const uint8_t *file, size_t file_length);

#endif
