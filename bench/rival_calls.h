/* The rival's calls: document 01's five on lent bytes, every word low byte first, as the planner's library has them. */

#ifndef RIVAL_CALLS_H
#define RIVAL_CALLS_H

#include <stddef.h>
#include <stdint.h>

uint32_t rival_open(uint32_t n, uint32_t d, const uint8_t *domains, size_t domains_length, const uint8_t *tables, size_t tables_length,
                    uint8_t *agenda, size_t agenda_length, uint32_t *steps, uint64_t *checks, uint32_t *subproblems);

uint32_t rival_run(uint32_t n, uint32_t d, const uint8_t *domains, size_t domains_length, const uint8_t *tables, size_t tables_length,
                   uint8_t *agenda, size_t agenda_length, const uint8_t *requests, size_t requests_length, uint32_t *steps,
                   uint64_t *checks, uint32_t *subproblems, uint32_t *verdict, uint32_t *taken);

uint32_t rival_choose(uint32_t n, uint32_t d, const uint8_t *domains, size_t domains_length, const uint8_t *tables, size_t tables_length,
                      uint8_t *agenda, size_t agenda_length, uint32_t limit, uint32_t *steps, uint64_t *checks, uint32_t *subproblems,
                      uint32_t *verdict, uint32_t *taken);

uint32_t rival_save(uint32_t n, uint32_t d, const uint8_t *domains, size_t domains_length, const uint8_t *tables, size_t tables_length,
                    const uint8_t *agenda, size_t agenda_length, uint32_t steps, uint64_t checks, uint32_t subproblems, uint8_t *file,
                    size_t file_length, uint32_t *blocks);

uint32_t rival_load(const uint8_t *file, size_t file_length, uint8_t *domains, size_t domains_length, uint8_t *tables,
                    size_t tables_length, uint8_t *agenda, size_t agenda_length, uint32_t *n, uint32_t *d, uint32_t *steps,
                    uint64_t *checks, uint32_t *subproblems);

#endif
