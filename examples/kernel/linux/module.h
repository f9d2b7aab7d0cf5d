/* What the parts of the module know of each other: a region of pages, and threads that work on it. */
#ifndef MODULE_H
#define MODULE_H
#define pr_fmt(text) "llfree: " text
#include <linux/completion.h>
#include <linux/mm.h>
#include "llfree.h"
#include "report.h"

enum { CORES = 64, HELD = 16, ANY_ORDER = ORDERS };
enum form { BY_NUMBER, IN_STRUCT, BY_LINUX, FORMS };
extern const char *const forms[FORMS];

extern unsigned int frames, cores;
extern llfree_core handles[CORES];

/* So many pages of Linux, in parts that need not lie side by side; false where it has not so many. */
bool get_pages(unsigned int mebibytes);
void free_pages_of_region(void);
struct page *page_of(unsigned int frame);

bool get_workers(void);
void free_workers(void);

/* So many CPUs take and give at the same time, blocks of one order or of any. Just the first page of a block is
 * stamped where it is one order. The answer is nanoseconds a pair; 0 where a stamp or an answer was wrong. */
u64 run(enum form form, unsigned int count, unsigned int order, u64 nanoseconds, u64 *pairs);

#endif
