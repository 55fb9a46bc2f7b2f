/* A process kernel in plain C with the library's signatures: the baseline of the benchmarks.
 * Lengths are in elements. Answers have ten bits a field, code lowest; those of due, nearest and
 * sheet have twenty. */
#ifndef PLAIN_H
#define PLAIN_H

#include <stddef.h>
#include <stdint.h>

uint64_t plain_start(uint16_t *area, size_t len, uint16_t processes, uint16_t locks,
                     uint16_t conditions, uint16_t parks, const uint8_t *priorities,
                     size_t count);
uint64_t plain_sound(const uint16_t *area, size_t len);
uint64_t plain_enter(uint16_t *area, size_t len, uint16_t lock);
uint64_t plain_exit(uint16_t *area, size_t len, uint16_t lock);
uint64_t plain_wait(uint16_t *area, size_t len, uint16_t lock, uint16_t condition,
                    uint16_t ticks);
uint64_t plain_notify(uint16_t *area, size_t len, uint16_t condition);
uint64_t plain_broadcast(uint16_t *area, size_t len, uint16_t condition);
uint64_t plain_naked(uint16_t *area, size_t len, uint16_t condition);
uint64_t plain_abort(uint16_t *area, size_t len, uint16_t process);
uint64_t plain_set_abortable(uint16_t *area, size_t len, uint16_t condition, uint16_t value);
uint64_t plain_reenter(uint16_t *area, size_t len, uint16_t lock, uint16_t condition);
uint64_t plain_requeue(uint16_t *area, size_t len, uint16_t source, uint16_t destination,
                       uint16_t process);
uint64_t plain_set_priority(uint16_t *area, size_t len, uint16_t priority);
uint64_t plain_tick(uint16_t *area, size_t len);
uint64_t plain_list(const uint16_t *area, size_t len, uint16_t kind, uint16_t number,
                    uint16_t *buffer, size_t buffer_len);
uint64_t plain_due(const uint16_t *area, size_t len, uint16_t ticks, uint16_t *buffer,
                   size_t buffer_len);
uint64_t plain_nearest(const uint16_t *area, size_t len);
uint64_t plain_sheet(const uint16_t *area, size_t len, uint8_t *page, size_t page_len);

#endif
