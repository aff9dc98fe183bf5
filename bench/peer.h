/* A plain C judge with the answers of krupovesh.h, to compare costs with. Written from documents 01 and 02 alone. */
#ifndef PEER_H
#define PEER_H

#include <stddef.h>
#include <stdint.h>

uint64_t peer_clean(const uint16_t *log, size_t log_length, uint8_t *work, size_t work_length);

uint64_t peer_snapshot(const uint16_t *log, size_t log_length, uint8_t *work, size_t work_length);

uint64_t peer_conflict(const uint16_t *log, size_t log_length, uint8_t *work, size_t work_length,
                       uint16_t *witness, size_t witness_length);

uint64_t peer_version(const uint16_t *log, size_t log_length, uint8_t *work, size_t work_length,
                      uint16_t *witness, size_t witness_length);

uint64_t peer_exact(const uint16_t *log, size_t log_length, uint8_t *work, size_t work_length,
                    uint16_t *witness, size_t witness_length);

uint64_t peer_next(const uint16_t *log, size_t log_length, const uint16_t *order, size_t order_length,
                   uint8_t *work, size_t work_length, uint16_t *witness, size_t witness_length);

uint64_t peer_read(const uint8_t *text, size_t text_length, uint16_t *steps, size_t steps_length);

uint64_t peer_write(const uint16_t *log, size_t log_length, uint8_t *out, size_t out_length);

uint64_t peer_report(const uint8_t *text, size_t text_length, uint8_t *out, size_t out_length);

uint64_t peer_live(uint16_t *state, size_t state_length, uint16_t *opened, size_t opened_length, uint16_t *rows, size_t rows_length,
                   uint64_t *marks, size_t marks_length, uint64_t *edges, size_t edges_length,
                   const uint16_t *part, size_t part_length, uint16_t *answers, size_t answers_length);

uint64_t peer_accepts(const uint16_t *log, size_t log_length, const uint16_t *proposal, size_t proposal_length,
                      uint8_t *work, size_t work_length);

uint64_t peer_redo(const uint16_t *log, size_t log_length, uint8_t *work, size_t work_length,
                   uint16_t *proposal, size_t proposal_length);

#endif
