/* A board as a C program reads it: records of uluvoli_lane. */
#ifndef LANES_H
#define LANES_H

#include <stdbool.h>
#include <stdint.h>

/* Whether what a call wrote as lanes is, read part by part, what these records say: filled, length, race low byte first, crew. */
bool lanes_agree(const uint8_t *written, const uint8_t *records);

#endif
