#include "lend.h"

#include "promise.h"

#include <stdlib.h>
#include <string.h>
#include <sys/mman.h>

enum { LISTS_MOST = 48, PAGE = 4096, GUARD = 64, GUARD_BYTE = 0xC5 };

struct list {
    const char *name;
    uint8_t *at, *before;
    size_t bytes;
    enum use use;
    bool high, vast;
};

/* A slot of pages for one list, and one for what it held; a page that nobody may touch around each. */
struct slot {
    uint8_t *list, *before;
};

static struct list lists[LISTS_MOST];
static size_t count_lent;
static struct slot slots[LISTS_MOST];
static bool from_heap;
static uint8_t *vast_pages;
static const size_t vast_bytes = VAST * 4 + LIST_BYTES_MOST;

static uint8_t *pages(size_t bytes, int protection)
{
    void *found = mmap(NULL, bytes, protection, MAP_PRIVATE | MAP_ANONYMOUS | MAP_NORESERVE, -1, 0);
    return found == MAP_FAILED ? NULL : found;
}

static void must(bool holds, const char *what)
{
    if (!holds)
        give_up(what);
}

/* Pages for `bytes` bytes, a whole number of pages, between two pages that nobody may touch. */
static uint8_t *fenced(size_t bytes)
{
    uint8_t *all = pages(bytes + 2 * PAGE, PROT_NONE);
    must(all != NULL, "no pages");
    must(mprotect(all + PAGE, bytes, PROT_READ | PROT_WRITE) == 0, "pages cannot be opened");
    return all + PAGE;
}

void lend_prepare(bool on_heap)
{
    from_heap = on_heap;
    if (on_heap)
        return;
    for (size_t k = 0; k < LISTS_MOST; k++) {
        slots[k].list = fenced(LIST_BYTES_MOST);
        slots[k].before = fenced(LIST_BYTES_MOST);
    }
    vast_pages = pages(vast_bytes, PROT_READ);
}

bool lend_vast(void)
{
    return vast_pages != NULL;
}

void lend_start(void)
{
    if (from_heap)
        for (size_t k = 0; k < count_lent; k++) {
            free(lists[k].at);
            free(lists[k].before);
        }
    count_lent = 0;
}

static uint8_t *guard_of(const struct list *list)
{
    return list->high ? list->at - GUARD : list->at + list->bytes;
}

static bool guarded(const struct list *list)
{
    return !from_heap && !list->vast && list->bytes + GUARD <= LIST_BYTES_MOST;
}

void *lend(const char *name, size_t count, size_t size, enum use use, bool high)
{
    must(count_lent < LISTS_MOST, "too many lists");
    struct slot *slot = &slots[count_lent];
    struct list *list = &lists[count_lent++];
    *list = (struct list){name, NULL, NULL, count * size, use, high, count >= VAST};
    if (list->vast) {
        must(list->bytes <= vast_bytes, "a list is too vast");
        list->at = vast_pages;
        return list->at;
    }
    if (from_heap) {
        list->at = malloc(list->bytes);
        list->before = malloc(list->bytes);
        must(list->at != NULL && list->before != NULL, "no memory");
        return list->at;
    }
    must(list->bytes <= LIST_BYTES_MOST, "a list is too long");
    list->at = high ? slot->list + LIST_BYTES_MOST - list->bytes : slot->list;
    list->before = slot->before;
    if (guarded(list))
        memset(guard_of(list), GUARD_BYTE, GUARD);
    return list->at;
}

void lend_note(void)
{
    for (size_t k = 0; k < count_lent; k++)
        if (!lists[k].vast)
            memcpy(lists[k].before, lists[k].at, lists[k].bytes);
}

void lend_check(void)
{
    for (size_t k = 0; k < count_lent; k++) {
        const struct list *list = &lists[k];
        for (size_t byte = 0; guarded(list) && byte < GUARD; byte++)
            promise(guard_of(list)[byte] == GUARD_BYTE, "nothing is written %s %s",
                    list->high ? "before" : "behind", list->name);
        if (list->use == READ && !list->vast)
            promise(memcmp(list->at, list->before, list->bytes) == 0, "%s is lent for reading and stays",
                    list->name);
    }
}

static const struct list *find(const void *start)
{
    for (size_t k = 0; k < count_lent; k++)
        if (lists[k].at == start)
            return &lists[k];
    give_up("a list that was not lent");
}

void stays(const void *start, size_t from)
{
    const struct list *list = find(start);
    if (list->vast || from >= list->bytes)
        return;
    promise(memcmp(list->at + from, list->before + from, list->bytes - from) == 0,
            from == 0 ? "nothing is written to %s" : "%s stays behind what was written", list->name);
}

void is_cleared(const void *start)
{
    const struct list *list = find(start);
    for (size_t byte = 0; byte < list->bytes; byte++)
        promise(list->at[byte] == 0, "%s is all zero", list->name);
}

const void *noted(const void *start)
{
    return find(start)->before;
}

const char *lent_near(const void *address)
{
    const uint8_t *at = address;
    for (size_t k = 0; k < count_lent; k++) {
        const uint8_t *first = lists[k].vast ? vast_pages : slots[k].list;
        size_t bytes = lists[k].vast ? vast_bytes : LIST_BYTES_MOST;
        if (!from_heap && at >= first - PAGE && at < first + bytes + PAGE)
            return lists[k].name;
    }
    return NULL;
}

void *keep(const void *list, size_t bytes)
{
    if (from_heap) {
        void *copy = malloc(bytes);
        must(copy != NULL, "no memory");
        return memcpy(copy, list, bytes);
    }
    size_t whole = (bytes + PAGE - 1) / PAGE * PAGE;
    uint8_t *room = fenced(whole);
    uint8_t *copy = memcpy(room + whole - bytes, list, bytes);
    must(mprotect(room, whole, PROT_READ) == 0, "pages cannot be closed");
    return copy;
}
