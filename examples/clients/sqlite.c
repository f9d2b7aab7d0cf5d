/* SQLite's page cache out of page frames, by SQLITE_CONFIG_PCACHE2: sqlite FOLDER. Threads work on a database each, in
 * pages of 4 to 16 KiB, and look at its integrity; at the end all frames are free again. */
#define _GNU_SOURCE
#include "frames.h"
#include <pthread.h>
#include <sqlite3.h>
#include <stdlib.h>
#include <string.h>

enum { FRAMES = 16384, THREADS = 8, ROUNDS = 3, BUCKETS = 1024 };

/* A page lies in whole frames. One that nobody has pinned stands in a ring, the latest first. */
struct page {
    sqlite3_pcache_page seen;
    unsigned key;
    struct page *next, *newer, *older;
};

struct cache {
    uint32_t frames;
    unsigned extra, most, count;
    struct page *buckets[BUCKETS], ring;
};

static void pins(struct page *page)
{
    if (page->newer != NULL) {
        page->newer->older = page->older;
        page->older->newer = page->newer;
        page->newer = page->older = NULL;
    }
}

static struct page **place(struct cache *cache, unsigned key)
{
    struct page **at = &cache->buckets[key % BUCKETS];
    while (*at != NULL && (*at)->key != key)
        at = &(*at)->next;
    return at;
}

static void drops(struct cache *cache, struct page *page)
{
    pins(page);
    *place(cache, page->key) = page->next;
    region_give(page->seen.pBuf, cache->frames);
    free(page);
    cache->count--;
}

static int init(void *none)
{
    (void)none;
    return SQLITE_OK;
}

static void shutdown(void *none)
{
    (void)none;
}

static sqlite3_pcache *create(int size, int extra, int is_purgeable)
{
    struct cache *cache = calloc(1, sizeof *cache);
    (void)is_purgeable;
    if (cache == NULL)
        return NULL;
    cache->frames = ((uint32_t)size + LLFREE_FRAME_BYTES - 1) / LLFREE_FRAME_BYTES;
    cache->extra = (unsigned)extra;
    cache->most = 100;
    cache->ring.newer = cache->ring.older = &cache->ring;
    return (sqlite3_pcache *)cache;
}

static void cachesize(sqlite3_pcache *it, int most)
{
    ((struct cache *)it)->most = most > 0 ? (unsigned)most : 100;
}

static int pagecount(sqlite3_pcache *it)
{
    return (int)((struct cache *)it)->count;
}

static sqlite3_pcache_page *fetch(sqlite3_pcache *it, unsigned key, int how)
{
    struct cache *cache = (struct cache *)it;
    struct page *page = *place(cache, key), *oldest = cache->ring.newer;
    void *at;

    if (page != NULL) {
        pins(page);
        return &page->seen;
    }
    if (how == 0 || (how == 1 && cache->count >= cache->most && oldest == &cache->ring))
        return NULL;
    if (cache->count >= cache->most && oldest != &cache->ring)
        drops(cache, oldest);
    while ((at = region_take(cache->frames, 1)) == NULL) {
        if ((oldest = cache->ring.newer) == &cache->ring)
            return NULL;
        drops(cache, oldest);
    }
    page = calloc(1, sizeof *page + cache->extra);
    if (page == NULL) {
        region_give(at, cache->frames);
        return NULL;
    }
    page->seen.pBuf = at;
    page->seen.pExtra = page + 1;
    page->key = key;
    page->next = cache->buckets[key % BUCKETS];
    cache->buckets[key % BUCKETS] = page;
    cache->count++;
    return &page->seen;
}

static void unpin(sqlite3_pcache *it, sqlite3_pcache_page *seen, int is_done)
{
    struct cache *cache = (struct cache *)it;
    struct page *page = (struct page *)seen;

    if (is_done || cache->count > cache->most) {
        drops(cache, page);
        return;
    }
    page->newer = &cache->ring;
    page->older = cache->ring.older;
    cache->ring.older->newer = page;
    cache->ring.older = page;
}

static void rekey(sqlite3_pcache *it, sqlite3_pcache_page *seen, unsigned old, unsigned key)
{
    struct cache *cache = (struct cache *)it;
    struct page *page = (struct page *)seen, *other = *place(cache, key);

    if (other != NULL)
        drops(cache, other);
    *place(cache, old) = page->next;
    page->key = key;
    page->next = cache->buckets[key % BUCKETS];
    cache->buckets[key % BUCKETS] = page;
}

static void truncates(sqlite3_pcache *it, unsigned limit)
{
    struct cache *cache = (struct cache *)it;
    for (int i = 0; i < BUCKETS; i++)
        for (struct page *page = cache->buckets[i], *next; page != NULL; page = next) {
            next = page->next;
            if (page->key >= limit)
                drops(cache, page);
        }
}

static void destroy(sqlite3_pcache *it)
{
    truncates(it, 0);
    free(it);
}

static void shrink(sqlite3_pcache *it)
{
    struct cache *cache = (struct cache *)it;
    while (cache->ring.newer != &cache->ring)
        drops(cache, cache->ring.newer);
}

static void runs(sqlite3 *database, const char *words)
{
    char *why = NULL;
    if (sqlite3_exec(database, words, NULL, NULL, &why) != SQLITE_OK) {
        fprintf(stderr, "%s: %s\n", words, why);
        abort();
    }
}

static int is_ok(void *checks, int columns, char **values, char **names)
{
    (void)names;
    if (columns != 1 || strcmp(values[0], "ok") != 0) {
        fprintf(stderr, "integrity: %s\n", values[0]);
        abort();
    }
    ++*(int *)checks;
    return 0;
}

static const char *folder;

static void *work(void *argument)
{
    size_t number = (size_t)argument;
    char name[512], words[512];
    sqlite3 *database;
    int checks = 0;

    snprintf(name, sizeof name, "%s/%zu.db", folder, number);
    if (sqlite3_open(name, &database) != SQLITE_OK)
        abort();
    snprintf(words, sizeof words, "pragma page_size = %d; pragma cache_size = 400; pragma journal_mode = %s",
             4096 << number % 3, number % 2 ? "wal" : "delete");
    runs(database, words);
    runs(database, "pragma synchronous = off; create table t(id integer primary key, k int, v text);"
         "create index by_k on t(k); create index by_v on t(v);"
         "with recursive c(i) as (select 1 union all select i + 1 from c where i < 6000)"
         " insert into t select i, abs(random()) % 100000, hex(randomblob(40 + i % 100)) from c");
    for (int round = 0; round < ROUNDS; round++) {
        runs(database, "begin; update t set v = hex(randomblob(60)) where k % 7 = 3; delete from t where k % 11 = 5;"
             "insert into t(k, v) select k + 1, v from t where id % 9 = 1; commit");
        runs(database, "begin; delete from t where id % 3 = 1; update t set k = k + 1 where id % 5 = 2; rollback");
        runs(database, "create temp table x as select k, v from t order by v limit 2000;"
             "select count(*) from x join t on x.k = t.k; drop table x; pragma shrink_memory");
        if (sqlite3_exec(database, "pragma integrity_check", is_ok, &checks, NULL) != SQLITE_OK)
            abort();
    }
    runs(database, "vacuum");
    if (sqlite3_exec(database, "pragma integrity_check", is_ok, &checks, NULL) != SQLITE_OK)
        abort();
    if (sqlite3_close(database) != SQLITE_OK || checks != ROUNDS + 1)
        abort();
    return NULL;
}

int main(int count, char **arguments)
{
    static const sqlite3_pcache_methods2 methods = {
        .iVersion = 1, .xInit = init, .xShutdown = shutdown, .xCreate = create, .xCachesize = cachesize,
        .xPagecount = pagecount, .xFetch = fetch, .xUnpin = unpin, .xRekey = rekey, .xTruncate = truncates,
        .xDestroy = destroy, .xShrink = shrink
    };
    pthread_t threads[THREADS];

    folder = count == 2 ? arguments[1] : ".";
    if (!region_open(FRAMES) || sqlite3_config(SQLITE_CONFIG_PCACHE2, &methods) != SQLITE_OK)
        return 1;
    for (size_t i = 0; i < THREADS; i++)
        if (pthread_create(&threads[i], NULL, work, (void *)i) != 0)
            return 1;
    for (int i = 0; i < THREADS; i++)
        pthread_join(threads[i], NULL);
    sqlite3_shutdown();
    printf("takes %lu gives %lu refused %lu\n", region.takes, region.gives, region.refused);
    if (!region_adds_up() || region.takes == 0 || region.out.taken != region.out.given)
        fails("out and free are not all", 0);
    llfree_pool_close(region.desks, DESKS);
    return 0;
}
