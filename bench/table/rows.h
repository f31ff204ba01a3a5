/* The rows of the table: the calls that are measured, call by call. */
#ifndef ROWS_H
#define ROWS_H

#include "sides.h"

typedef void Visit(const char *label, const Side sides[SIDES]);

/*
 * Starts the case of each row in turn and has it visited. Ends the program
 * with 1 if a side gives another answer than the row is about.
 */
void each_row(Visit *visit);

/* ---- For the files that hold the rows ---- */

/* A row of the case at hand, with the number and count that each side has to give; the count of a
   trace is that of the entries visited. */
void row(const char *label, uint8_t number, size_t count);

/*
 * Damages the frame at hand, the shortest or the longest of its version, so that
 * its reading refuses it with the number.
 */
void damaged(uint8_t number);

void check_rows(void);
void reader_rows(void);
void fresh_rows(void);
void send_rows(void);
void receive_rows(void);
void receive_refusal_rows(void);
void clock_rows(void);
void set_back_rows(void);
void trace_rows(void);

#endif
