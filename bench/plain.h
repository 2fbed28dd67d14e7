/* A plain check in C and the writing of one line, with no proof: the measure of the benchmark, and no part of the product. */
#ifndef PLAIN_H
#define PLAIN_H

#include <stddef.h>
#include <stdint.h>

/* Checks a certificate text for a history text: the same answer's number as walnutgleam_check. */
uint32_t plain_check(const uint8_t *history, size_t history_length,
                     const uint8_t *certificate, size_t certificate_length);

/* Writes the sequential certificate of ordered updates: the same number, bytes and length as walnutgleam_sequential. */
uint32_t plain_sequential(const uint8_t *history, size_t history_length,
                          const uint8_t *certificate, size_t certificate_length,
                          uint8_t *buffer, size_t buffer_length, uint64_t *length);

#endif
