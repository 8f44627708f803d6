// A check of a card in C: what the proved one is measured against.
#include "check.h"

#include <stdbool.h>
#include <string.h>

enum { PAYLOAD = 60, ROW = 64, MAX_SECTORS = 1024, MIN_LOG = 9, MAX_LOG = 64, MAX_RECORDS = 8 };
enum { PAGE_RECORD = 1, COMMIT_RECORD = 2, HOME = 3, HEADER = 4 };
enum { BODY = 12, DATA = BODY + 8, WORDS = 10, SLOTS = 16 };
enum { FREE_CODE = 0, ROOT_CODE = 6 };

#define REFERENCES 0x55555u  // the kinds of ten references

// What a mark says of a handle: that it has an object, that this object has references, that a reference names the
// handle, and that it is reached from the root page.
enum { OBJECT = 1, LINKS = 2, NAMED = 4, REACHED = 8 };

// Of each class code: the slots of a page, the words of a slot, and the kinds of slot 0 if it has references only. A
// free page and the root page have no slots.
static const struct class {
    uint32_t slots, words, kinds;
} classes[] = {{0, 0, 0}, {10, 1, 0x1}, {5, 2, 0x5}, {3, 3, 0x15}, {2, 5, 0x155}, {1, 10, 0x55555}, {0, 0, 0}};

struct check {
    const struct card *card;
    uint32_t root, handles;
    uint8_t *marks;
    uint16_t *queue;
    uint32_t queued;
    uint32_t unmet;                 // how many handles are named of which no object was found so far
    uint8_t record[MAX_SECTORS];    // the log sector that has a page's committed body, or 0
    uint16_t waiting[MAX_SECTORS];  // the slots of a page that are reached and must be followed
    struct check_result result;
};

static uint32_t table[256];

void c_check_prepare(void) {
    for (uint32_t i = 0; i < 256; i++) {
        uint32_t r = i;
        for (int bit = 0; bit < 8; bit++)
            r = (r >> 1) ^ ((r & 1) * 0x82F63B78u);
        table[i] = r;
    }
}

static uint32_t get16(const uint8_t *bytes) {
    return bytes[0] | (uint32_t)bytes[1] << 8;
}

static uint32_t get32(const uint8_t *bytes) {
    return bytes[0] | (uint32_t)bytes[1] << 8 | (uint32_t)bytes[2] << 16 | (uint32_t)bytes[3] << 24;
}

static uint32_t lowest(uint32_t bits) {
    return (uint32_t)__builtin_ctz(bits);
}

static bool all_zero(const uint8_t *bytes, size_t length) {
    for (size_t i = 0; i < length; i++)
        if (bytes[i] != 0)
            return false;
    return true;
}

// 0, or 2 if there is no such sector, or 3 if it is torn.
static int read_sector(const struct card *c, uint32_t sector, uint8_t out[60]) {
    if (sector >= c->sectors)
        return 2;
    const uint8_t *row = c->rows + (size_t)sector * ROW;
    memcpy(out, row, PAYLOAD);
    uint32_t r = 0xFFFFFFFFu;
    for (int i = 0; i < PAYLOAD; i++)
        r = (r >> 8) ^ table[(r ^ out[i]) & 0xff];
    for (int i = 0; i < 4; i++)
        r = (r >> 8) ^ table[(r ^ (sector >> 8 * i)) & 0xff];
    return ~r == get32(row + PAYLOAD) ? 0 : 3;
}

static bool refuse(struct check *k, uint32_t refusal, uint32_t sector, uint32_t word) {
    k->result = (struct check_result){.refusal = refusal, .sector = sector, .word = word};
    return false;
}

static bool is_header(const struct card *c, uint32_t sector, const uint8_t p[PAYLOAD]) {
    uint32_t log = get16(p + 2), epoch = get32(p + 4), sectors = get32(p + 8);
    return p[0] == HEADER && p[1] == 1 && log >= MIN_LOG && log <= MAX_LOG && epoch >= 1 && epoch % 2 == sector &&
           sectors == c->sectors && sectors >= log + 4 && sectors <= MAX_SECTORS && all_zero(p + 16, PAYLOAD - 16);
}

// Finds the epoch. No two valid headers have the same one, since the remainders by 2 differ.
static bool read_headers(struct check *k, uint32_t *epoch) {
    *epoch = 0;
    for (uint32_t sector = 0; sector < 2; sector++) {
        uint8_t p[PAYLOAD];
        if (read_sector(k->card, sector, p) == 0 && is_header(k->card, sector, p) && get32(p + 4) > *epoch) {
            *epoch = get32(p + 4);
            k->root = get16(p + 2) + 2;
            k->result.transactions = get32(p + 12);
        }
    }
    return *epoch != 0 || refuse(k, NO_HEADER, 0, 0);
}

// Looks for later records in the whole of the log, and takes what is committed before the log's end.
static bool read_log(struct check *k, uint32_t epoch) {
    uint16_t homes[MAX_RECORDS];
    uint32_t pending = 0;
    bool ended = false;
    for (uint32_t sector = 2; sector < k->root; sector++) {
        uint8_t p[PAYLOAD];
        bool readable = read_sector(k->card, sector, p) == 0;
        bool record = readable && (p[0] == PAGE_RECORD || p[0] == COMMIT_RECORD);
        if (record && get32(p + 4) > epoch)
            return refuse(k, LATER_RECORD, sector, 0);
        if (ended || !record || p[1] != 0 || get16(p + 2) != sector - 2 || get32(p + 4) != epoch) {
            ended = true;
        } else if (p[0] == PAGE_RECORD) {
            // With more than a commit record can count, none that follows is good.
            uint32_t home = get32(p + 8);
            ended = home < k->root || home >= k->card->sectors || pending == MAX_RECORDS;
            if (!ended)
                homes[pending++] = (uint16_t)home;
        } else {
            uint32_t before = k->result.transactions;
            ended = get32(p + 8) != pending || before == UINT32_MAX || get32(p + 12) != before + 1 ||
                    !all_zero(p + 16, PAYLOAD - 16);
            if (!ended) {
                k->result.transactions = before + 1;
                for (uint32_t i = 0; i < pending; i++)
                    k->record[homes[i]] = (uint8_t)(sector - pending + i);
                pending = 0;
            }
        }
    }
    return true;
}

// Reads the body of a page, at the place where it has its committed record or its home.
static int read_page(const struct check *k, uint32_t sector, uint8_t p[PAYLOAD]) {
    return read_sector(k->card, k->record[sector] != 0 ? k->record[sector] : sector, p);
}

static void name(struct check *k, uint32_t handle) {
    if (handle >= k->handles) {
        k->unmet++;
        return;
    }
    k->unmet += (k->marks[handle] & (NAMED | OBJECT)) == 0;
    k->marks[handle] |= NAMED;
}

static void take_object(struct check *k, uint32_t handle, uint8_t links) {
    k->unmet -= (k->marks[handle] & NAMED) != 0;
    k->marks[handle] |= OBJECT | links;
    k->result.objects++;
}

// Judges a body, and marks its objects and what its references name. False if it is unlawful.
static bool take_page(struct check *k, uint32_t sector, const uint8_t p[PAYLOAD]) {
    uint32_t head = get32(p + BODY), kinds = get32(p + BODY + 4), used = head & 0x3ff, code = head >> 10;
    if (code > ROOT_CODE || (code == ROOT_CODE) != (sector == k->root) || (kinds & ~REFERENCES) != 0)
        return false;
    struct class class = classes[code];
    if (used >> class.slots != 0 || (used == 0) != (class.slots == 0))
        return false;
    // The words that may be other than number 0 are those with a kind bit in here.
    uint32_t inside = code == ROOT_CODE ? kinds : 0;
    for (uint32_t left = used; left != 0; left &= left - 1) {
        uint32_t slot = lowest(left), own = class.kinds << 2 * class.words * slot;
        inside |= own;
        take_object(k, sector * SLOTS + slot, kinds & own ? LINKS : 0);
    }
    uint32_t outside = kinds & ~inside;
    for (uint32_t word = 0; word < WORDS; word++)
        outside |= inside >> 2 * word & 1 ? 0 : get32(p + DATA + 4 * word);
    if (outside != 0)
        return false;
    for (uint32_t left = kinds; left != 0; left &= left - 1)
        name(k, get32(p + DATA + 2 * lowest(left)));
    k->result.free_pages += code == FREE_CODE;
    return true;
}

static bool read_pages(struct check *k) {
    for (uint32_t sector = k->root; sector < k->card->sectors; sector++) {
        uint8_t p[PAYLOAD];
        if (read_page(k, sector, p) != 0)
            return refuse(k, TORN, sector, 0);
        bool home = k->record[sector] == 0;
        if (home && (get32(p) != HOME || get32(p + 4) != sector || get32(p + 8) != 0))
            return refuse(k, BAD_PAGE, sector, 0);
        if (!take_page(k, sector, p))
            return refuse(k, BAD_PAGE, sector, 0);
    }
    return true;
}

// Only if a handle that is named has no object, the pages have to be read again, to find which word comes first.
static bool judge_references(struct check *k) {
    for (uint32_t sector = k->root; k->unmet != 0 && sector < k->card->sectors; sector++) {
        uint8_t p[PAYLOAD];
        if (read_page(k, sector, p) != 0)
            return refuse(k, TORN, sector, 0);
        for (uint32_t left = get32(p + BODY + 4); left != 0; left &= left - 1) {
            uint32_t word = lowest(left) / 2, handle = get32(p + DATA + 4 * word);
            if (handle >= k->handles || (k->marks[handle] & OBJECT) == 0)
                return refuse(k, NO_OBJECT, sector, word);
        }
    }
    return true;
}

// Reaches what the references with these kind bits name. Objects without references need not be followed.
static void reach(struct check *k, const uint8_t p[PAYLOAD], uint32_t references) {
    for (; references != 0; references &= references - 1) {
        uint32_t handle = get32(p + DATA + 2 * lowest(references)), mark = k->marks[handle];
        if (mark & REACHED)
            continue;
        k->marks[handle] = (uint8_t)(mark | REACHED);
        k->result.reachable++;
        if (mark & LINKS) {
            if (k->waiting[handle / SLOTS] == 0)
                k->queue[k->queued++] = (uint16_t)handle;
            k->waiting[handle / SLOTS] |= (uint16_t)(1 << handle % SLOTS);
        }
    }
}

// Breadth first, but what waits in one page is followed together, also what the page itself has reached meanwhile.
static bool walk(struct check *k) {
    uint8_t p[PAYLOAD];
    if (read_page(k, k->root, p) != 0)
        return refuse(k, TORN, k->root, 0);
    reach(k, p, get32(p + BODY + 4));
    for (uint32_t next = 0; next < k->queued; next++) {
        uint32_t sector = k->queue[next] / SLOTS;
        if (k->waiting[sector] == 0)
            continue;
        if (read_page(k, sector, p) != 0)
            return refuse(k, TORN, sector, 0);
        struct class class = classes[get32(p + BODY) >> 10];
        uint32_t kinds = get32(p + BODY + 4);
        while (k->waiting[sector] != 0) {
            uint32_t slot = lowest(k->waiting[sector]);
            k->waiting[sector] ^= (uint16_t)(1 << slot);
            reach(k, p, kinds & class.kinds << 2 * class.words * slot);
        }
    }
    return true;
}

struct check_result c_check(const struct card *card, uint8_t *marks, size_t marks_len, uint16_t *numbers,
                            size_t numbers_len) {
    struct check k = {.card = card, .marks = marks, .queue = numbers};
    size_t handles = (size_t)card->sectors * SLOTS;
    if (marks_len < handles || numbers_len < handles) {
        refuse(&k, SHORT_MEMORY, 0, 0);
        return k.result;
    }
    memset(marks, 0, handles);
    k.handles = (uint32_t)handles;
    uint32_t epoch;
    if (read_headers(&k, &epoch) && read_log(&k, epoch) && read_pages(&k) && judge_references(&k))
        walk(&k);
    memset(marks, 0, handles);
    memset(numbers, 0, handles * sizeof *numbers);
    return k.result;
}
