// Checking a card: whether it holds a heap, and what is in it, once in C and once as proved.
#include <stddef.h>
#include <stdint.h>

// A row image: for each sector 60 bytes of payload and 4 of checksum. It must not change during a check.
struct card {
    const uint8_t *rows;
    uint32_t sectors;
};

// The numbers of the refusals; 0 is none, and the card holds a heap.
enum { TORN = 3, NO_HEADER = 14, LATER_RECORD = 15, BAD_PAGE = 16, NO_OBJECT = 17, SHORT_MEMORY = 18 };

// After a refusal the four counts are 0, and so are a sector and a word that the refusal does not have.
struct check_result {
    uint32_t refusal;
    uint32_t sector, word;
    uint32_t transactions, free_pages, objects, reachable;
};

// Before the first check: makes the table of the checksum.
void c_check_prepare(void);

// Wants 16 marks and 16 numbers for each sector, and with fewer refuses and touches none. Otherwise it leaves that many
// of both zero, whatever they were and whatever it tells.
struct check_result c_check(const struct card *card, uint8_t *marks, size_t marks_len, uint16_t *numbers,
                            size_t numbers_len);

// The proved one: 0 with the transactions, the free pages, the objects and those reachable in `told`, or the refusal
// with its sector and its word there.
extern uint32_t goarfleki_check(const uint8_t *image, size_t image_len, uint8_t *marks, size_t marks_len, uint16_t *numbers,
                                size_t numbers_len, uint64_t *told, size_t told_len);
