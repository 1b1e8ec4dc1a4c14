// A plain mount in memory, in C and without proof, to set the mount's calls on names beside: `mkdir`,
// `unlink`, `stat-warm`, `stat-round`, `stat-cold`, `rename`, `list-plain`, `list-encrypted`, and
// `mkdir-NAMES`, `unlink-NAMES` and `stat-NAMES` among that many names. The words NAME COUNT make these
// calls that often, and print the sum of what was reported.
//
// Nodes are in an array, and each directory has a hash table of its names as they are stored. Names are
// encrypted by the shuffles of aes_shuffles.h in CBC with ciphertext stealing, under a key that is drawn by
// HKDF-SHA512 (OpenSSL's SHA-512) and cached with its round keys; a name of more than 149 stored bytes, for
// which no-key texts would have to be compared, is refused. Nothing is wiped before it is freed but
// keys.
//
//     gcc -O3 -march=x86-64-v2 plain_mount.c -o plain_mount -lcrypto && ./plain_mount stat-warm 1000
#define OPENSSL_SUPPRESS_DEPRECATED
#include "aes_shuffles.h"
#include <openssl/crypto.h>
#include <openssl/sha.h>
#include <stdbool.h>
#include <stdio.h>
#include <stdlib.h>
#include <string.h>

enum { MAX_NAME = 255, MAX_SPELLED = 149, MAX_PARTS = 32 };
enum { MAX_ENTRIES = 4096, MAX_NODES = 65536, PAGE = 128 };
enum { CONTEXT = 40, POLICY = 24, ID = 16, RUN_NAMES = 64, ROUND_NAMES = 320, FEW = 128, PAGE_START = 2048 };

typedef enum {
    OK, EXISTS, NOT_FOUND, NOT_DIR, IS_DIR, NOT_EMPTY, NO_KEY, INVAL, TOO_LONG, XDEV, NO_SPACE
} fault;

// ---- keys

// HMAC-SHA512 under a key, with the first block of both hashes done.
struct hmac {
    SHA512_CTX inner, outer;
};

struct names_key {
    uint8_t words[240];
};

static void hmac_key(struct hmac *h, const uint8_t *key, size_t len) {
    uint8_t block[128] = {0};
    memcpy(block, key, len);
    for (int i = 0; i < 128; i++) block[i] ^= 0x36;
    SHA512_Init(&h->inner);
    SHA512_Update(&h->inner, block, 128);
    for (int i = 0; i < 128; i++) block[i] ^= 0x36 ^ 0x5c;
    SHA512_Init(&h->outer);
    SHA512_Update(&h->outer, block, 128);
    OPENSSL_cleanse(block, sizeof block);
}

static void hmac(const struct hmac *h, const uint8_t *message, size_t len, uint8_t out[64]) {
    SHA512_CTX context = h->inner;
    SHA512_Update(&context, message, len);
    SHA512_Final(out, &context);
    context = h->outer;
    SHA512_Update(&context, out, 64);
    SHA512_Final(out, &context);
    OPENSSL_cleanse(&context, sizeof context);
}

// The first 64 bytes of HKDF-SHA512's expansion for the use, with the nonce after it.
static void draw(const struct hmac *prk, uint8_t use, const uint8_t *nonce, size_t len, uint8_t out[64]) {
    uint8_t info[8 + 1 + 16 + 1] = "fscrypt";
    info[8] = use;
    if (len) memcpy(info + 9, nonce, len);
    info[9 + len] = 1;
    hmac(prk, info, 10 + len, out);
}

static struct master {
    bool present;
    uint8_t id[ID];
    struct hmac prk;
} master;

static void add_key(const uint8_t *raw, size_t len) {
    static const uint8_t zeros[64];
    struct hmac salt;
    uint8_t prk[64], id[64];
    hmac_key(&salt, zeros, 64);
    hmac(&salt, raw, len, prk);
    hmac_key(&master.prk, prk, 64);
    draw(&master.prk, 1, NULL, 0, id);
    memcpy(master.id, id, ID);
    master.present = true;
    OPENSSL_cleanse(prk, sizeof prk);
}

static const struct master *key_of(const uint8_t *context) {
    return master.present && memcmp(context + 8, master.id, ID) == 0 ? &master : NULL;
}

// ---- names

// CBC with ciphertext stealing, form CS3, in place; the last two blocks change places. At least 16 bytes.
static void cts_encrypt(const struct names_key *key, uint8_t *text, size_t len) {
    vector chain = _mm_setzero_si128();
    if (len == 16) {
        _mm_storeu_si128((vector *)text, encrypt(key->words, _mm_loadu_si128((vector *)text)));
        return;
    }
    size_t last = (len - 1) / 16 * 16, rest = len - last, at = 0;
    for (; at < last; at += 16) {
        chain = encrypt(key->words, _mm_xor_si128(chain, _mm_loadu_si128((vector *)(text + at))));
        if (at + 16 < last) _mm_storeu_si128((vector *)(text + at), chain);
    }
    uint8_t before[16], end[16] = {0};
    _mm_storeu_si128((vector *)before, chain);
    memcpy(end, text + last, rest);
    chain = encrypt(key->words, _mm_xor_si128(chain, _mm_loadu_si128((vector *)end)));
    _mm_storeu_si128((vector *)(text + last - 16), chain);
    memcpy(text + last, before, rest);
}

static void cts_decrypt(const struct names_key *key, uint8_t *text, size_t len) {
    vector chain = _mm_setzero_si128();
    if (len == 16) {
        _mm_storeu_si128((vector *)text, decrypt(key->words, _mm_loadu_si128((vector *)text)));
        return;
    }
    size_t last = (len - 1) / 16 * 16, rest = len - last;
    for (size_t at = 0; at + 16 < last; at += 16) {
        vector block = _mm_loadu_si128((vector *)(text + at));
        _mm_storeu_si128((vector *)(text + at), _mm_xor_si128(chain, decrypt(key->words, block)));
        chain = block;
    }
    uint8_t end[16], before[16];
    _mm_storeu_si128((vector *)end, decrypt(key->words, _mm_loadu_si128((vector *)(text + last - 16))));
    memcpy(before, end, 16);
    memcpy(before, text + last, rest);
    for (size_t i = 0; i < rest; i++) text[last + i] ^= end[i];
    vector block = _mm_loadu_si128((vector *)before);
    _mm_storeu_si128((vector *)(text + last - 16), _mm_xor_si128(chain, decrypt(key->words, block)));
}

struct text {
    size_t len;
    uint8_t bytes[MAX_NAME + 1];
};

struct part {
    size_t len;
    const uint8_t *bytes;
};

// The stored form: padded with zeros to a multiple of 32 bytes, at least 16 and at most 255, and encrypted.
static void stored_form(const struct names_key *key, const struct part *name, struct text *out) {
    size_t len = (name->len + 31) / 32 * 32;
    out->len = len > MAX_NAME ? MAX_NAME : len;
    memcpy(out->bytes, name->bytes, name->len);
    memset(out->bytes + name->len, 0, out->len - name->len);
    cts_encrypt(key, out->bytes, out->len);
}

// ---- the tree

struct entry {
    uint32_t hash, node;
    size_t len;
    uint8_t name[];
};

// Open addressing; a slot from which an entry was taken is `gone`.
struct dir {
    struct entry **slots;
    uint32_t size, count, used;
};

enum kind { NONE, DIR, FIL };

struct node {
    enum kind kind;
    bool encrypted;
    uint8_t context[CONTEXT];
    struct names_key *key;
    struct dir dir;
    uint32_t size;
};

static struct entry gone_entry;
static struct entry *const gone = &gone_entry;
static struct node *nodes;
static uint32_t node_count, node_room, free_count, *free_nodes;
static uint32_t *cached, cached_count, cached_room;

static void *must(void *memory) {
    if (!memory) exit(3);
    return memory;
}

static uint32_t hash_of(const uint8_t *name, size_t len) {
    uint64_t hash = 0xcbf29ce484222325u ^ len;
    while (len >= 8) {
        uint64_t word;
        memcpy(&word, name, 8);
        hash = (hash ^ word) * 0x9e3779b97f4a7c15u;
        hash ^= hash >> 29;
        name += 8;
        len -= 8;
    }
    while (len--) hash = (hash ^ *name++) * 0x100000001b3u;
    return (uint32_t)(hash ^ hash >> 32);
}

static struct entry **slot_of(const struct dir *dir, const uint8_t *name, size_t len, uint32_t hash) {
    if (!dir->size) return NULL;
    for (uint32_t at = hash & (dir->size - 1);; at = (at + 1) & (dir->size - 1)) {
        struct entry *it = dir->slots[at];
        if (!it) return NULL;
        if (it != gone && it->hash == hash && it->len == len && memcmp(it->name, name, len) == 0)
            return &dir->slots[at];
    }
}

static void grow(struct dir *dir) {
    struct entry **old = dir->slots;
    uint32_t size = dir->size;
    dir->size = 8;
    while (dir->size < 2 * (dir->count + 1)) dir->size *= 2;
    dir->slots = must(calloc(dir->size, sizeof *dir->slots));
    dir->used = dir->count;
    for (uint32_t i = 0; i < size; i++) {
        if (!old[i] || old[i] == gone) continue;
        uint32_t at = old[i]->hash & (dir->size - 1);
        while (dir->slots[at]) at = (at + 1) & (dir->size - 1);
        dir->slots[at] = old[i];
    }
    free(old);
}

static void put_entry(struct dir *dir, struct entry *entry) {
    if (4 * (dir->used + 1) > 3 * dir->size) grow(dir);
    uint32_t at = entry->hash & (dir->size - 1);
    while (dir->slots[at] && dir->slots[at] != gone) at = (at + 1) & (dir->size - 1);
    if (!dir->slots[at]) dir->used++;
    dir->slots[at] = entry;
    dir->count++;
}

static struct entry *new_entry(const uint8_t *name, size_t len, uint32_t hash, uint32_t node) {
    struct entry *entry = must(malloc(sizeof *entry + len));
    entry->hash = hash;
    entry->node = node;
    entry->len = len;
    memcpy(entry->name, name, len);
    return entry;
}

static uint32_t new_node(enum kind kind, const struct node *dir, const uint8_t nonce[16]) {
    uint32_t number;
    uint8_t policy[POLICY];
    bool encrypted = dir && dir->encrypted;
    if (encrypted) memcpy(policy, dir->context, POLICY);
    if (free_count) {
        number = free_nodes[--free_count];
    } else {
        if (node_count == node_room) {
            node_room = node_room ? 2 * node_room : 64;
            nodes = must(realloc(nodes, node_room * sizeof *nodes));
            free_nodes = must(realloc(free_nodes, node_room * sizeof *free_nodes));
        }
        number = node_count++;
    }
    struct node *node = &nodes[number];
    memset(node, 0, sizeof *node);
    node->kind = kind;
    node->encrypted = encrypted;
    if (encrypted) {
        memcpy(node->context, policy, POLICY);
        memcpy(node->context + POLICY, nonce, 16);
    }
    return number;
}

static void let_key_go(struct node *node) {
    if (!node->key) return;
    OPENSSL_cleanse(node->key, sizeof *node->key);
    free(node->key);
    node->key = NULL;
}

static void free_node(uint32_t number) {
    let_key_go(&nodes[number]);
    free(nodes[number].dir.slots);
    nodes[number].kind = NONE;
    free_nodes[free_count++] = number;
}

static void drop_caches(void) {
    for (uint32_t i = 0; i < cached_count; i++) let_key_go(&nodes[cached[i]]);
    cached_count = 0;
}

// The key of the directory's names, cached or drawn; none where the master key is gone.
static struct names_key *key_at(uint32_t number) {
    struct node *node = &nodes[number];
    const struct master *from = key_of(node->context);
    if (!from) return NULL;
    if (node->key) return node->key;
    uint8_t drawn[64];
    draw(&from->prk, 2, node->context + POLICY, 16, drawn);
    node->key = must(malloc(sizeof *node->key));
    expand(drawn, node->key->words);
    OPENSSL_cleanse(drawn, sizeof drawn);
    if (cached_count == cached_room) {
        cached_room = cached_room ? 2 * cached_room : 64;
        cached = must(realloc(cached, cached_room * sizeof *cached));
    }
    cached[cached_count++] = number;
    return node->key;
}

// ---- calls

struct path {
    size_t count;
    struct part parts[MAX_PARTS];
};

struct stat {
    enum kind kind;
    uint32_t node, size;
    bool encrypted, keyed;
};

// The stored form of the part in the directory.
static fault form_in(uint32_t dir, const struct part *part, struct text *stored) {
    if (!nodes[dir].encrypted) {
        stored->len = part->len;
        memcpy(stored->bytes, part->bytes, part->len);
        return OK;
    }
    struct names_key *key = key_at(dir);
    if (!key) return NO_KEY;
    stored_form(key, part, stored);
    return OK;
}

static fault may_look(uint32_t dir, const struct part *part) {
    if (nodes[dir].kind != DIR) return NOT_DIR;
    return part->len > MAX_NAME ? TOO_LONG : OK;
}

static fault entry_of(uint32_t dir, const struct part *part, struct entry ***slot) {
    struct text stored;
    fault failed = may_look(dir, part);
    if (failed || (failed = form_in(dir, part, &stored))) return failed;
    *slot = slot_of(&nodes[dir].dir, stored.bytes, stored.len, hash_of(stored.bytes, stored.len));
    return *slot ? OK : NOT_FOUND;
}

// The node to which the first parts lead; whether the walk passes a node is reported where one is asked for.
static fault walk(const struct path *path, size_t count, uint32_t *at, uint32_t passed, bool *past) {
    *at = 0;
    for (size_t i = 0; i < count; i++) {
        struct entry **slot;
        fault failed = entry_of(*at, &path->parts[i], &slot);
        if (failed) return failed;
        if (past && *at == passed) *past = true;
        *at = (*slot)->node;
    }
    if (past && *at == passed) *past = true;
    return OK;
}

static fault parent(const struct path *path, uint32_t *dir, uint32_t passed, bool *past) {
    if (!path->count) return INVAL;
    fault failed = walk(path, path->count - 1, dir, passed, past);
    return failed ? failed : may_look(*dir, &path->parts[path->count - 1]);
}

// Where a new name comes: its directory, and its stored form with the hash.
struct place {
    uint32_t dir, hash;
    struct text stored;
};

static fault place_in(uint32_t dir, const struct part *part, struct place *place) {
    fault failed = form_in(dir, part, &place->stored);
    if (failed) return failed;
    place->dir = dir;
    place->hash = hash_of(place->stored.bytes, place->stored.len);
    if (slot_of(&nodes[dir].dir, place->stored.bytes, place->stored.len, place->hash)) return EXISTS;
    return nodes[dir].encrypted && place->stored.len > MAX_SPELLED ? TOO_LONG : OK;
}

static fault make(const struct path *path, enum kind kind, const uint8_t nonce[16]) {
    uint32_t dir;
    struct place place;
    fault failed = parent(path, &dir, 0, NULL);
    if (failed || (failed = place_in(dir, &path->parts[path->count - 1], &place))) return failed;
    if (nodes[dir].dir.count >= MAX_ENTRIES || node_count - free_count >= MAX_NODES) return NO_SPACE;
    uint32_t node = new_node(kind, &nodes[dir], nonce);
    put_entry(&nodes[dir].dir, new_entry(place.stored.bytes, place.stored.len, place.hash, node));
    return OK;
}

static fault take_away(const struct path *path, enum kind kind) {
    uint32_t dir;
    struct entry **slot;
    fault failed = parent(path, &dir, 0, NULL);
    if (failed || (failed = entry_of(dir, &path->parts[path->count - 1], &slot))) return failed;
    struct entry *entry = *slot;
    if (kind == DIR && nodes[entry->node].kind != DIR) return NOT_DIR;
    if (kind == FIL && nodes[entry->node].kind == DIR) return IS_DIR;
    if (kind == DIR && nodes[entry->node].dir.count) return NOT_EMPTY;
    *slot = gone;
    nodes[dir].dir.count--;
    free_node(entry->node);
    free(entry);
    return OK;
}

static fault stat_at(const struct path *path, struct stat *out) {
    uint32_t at;
    fault failed = walk(path, path->count, &at, 0, NULL);
    if (failed) return failed;
    const struct node *node = &nodes[at];
    out->kind = node->kind;
    out->node = at;
    out->size = node->kind == DIR ? node->dir.count : node->size;
    out->encrypted = node->encrypted;
    out->keyed = !node->encrypted || key_of(node->context);
    return OK;
}

static fault rename_to(const struct path *from, const struct path *to) {
    uint32_t dir, new_dir;
    struct entry **slot;
    struct place place;
    bool past = false;
    fault failed = parent(from, &dir, 0, NULL);
    if (failed || (failed = entry_of(dir, &from->parts[from->count - 1], &slot))) return failed;
    struct entry *entry = *slot;
    failed = parent(to, &new_dir, entry->node, &past);
    if (failed || (failed = place_in(new_dir, &to->parts[to->count - 1], &place))) return failed;
    const struct node *node = &nodes[entry->node], *into = &nodes[new_dir];
    if (past && node->kind == DIR) return INVAL;
    if (into->encrypted && (!node->encrypted || memcmp(into->context, node->context, POLICY))) return XDEV;
    if (new_dir != dir && into->dir.count >= MAX_ENTRIES) return NO_SPACE;
    struct entry *moved = new_entry(place.stored.bytes, place.stored.len, place.hash, entry->node);
    *slot = gone;
    nodes[dir].dir.count--;
    free(entry);
    put_entry(&nodes[new_dir].dir, moved);
    return OK;
}

struct listing {
    uint32_t count;
    bool more;
    struct text *names[PAGE];
};

static int by_bytes(const void *a, const void *b) {
    const struct text *x = *(struct text *const *)a, *y = *(struct text *const *)b;
    int order = memcmp(x->bytes, y->bytes, x->len < y->len ? x->len : y->len);
    return order ? order : (x->len > y->len) - (x->len < y->len);
}

// The names as they are shown, in the order of their bytes: at most 128 from number `start` on.
static fault list(const struct path *path, uint32_t start, struct listing *out) {
    uint32_t at, count = 0;
    fault failed = walk(path, path->count, &at, 0, NULL);
    if (failed) return failed;
    if (nodes[at].kind != DIR) return NOT_DIR;
    const struct dir *dir = &nodes[at].dir;
    struct names_key *key = nodes[at].encrypted ? key_at(at) : NULL;
    if (nodes[at].encrypted && !key) return NO_KEY;
    struct text *shown = must(malloc((dir->count + 1) * sizeof *shown));
    struct text **order = must(malloc((dir->count + 1) * sizeof *order));
    for (uint32_t i = 0; i < dir->size; i++) {
        const struct entry *entry = dir->slots[i];
        if (!entry || entry == gone) continue;
        struct text *name = &shown[count];
        order[count++] = name;
        name->len = entry->len;
        memcpy(name->bytes, entry->name, entry->len);
        if (!key) continue;
        cts_decrypt(key, name->bytes, name->len);
        while (name->len && !name->bytes[name->len - 1]) name->len--;
    }
    qsort(order, count, sizeof *order, by_bytes);
    out->count = 0;
    for (uint32_t i = start; i < count && out->count < PAGE; i++) {
        struct text *name = must(malloc(sizeof name->len + order[i]->len));
        memcpy(name, order[i], sizeof name->len + order[i]->len);
        out->names[out->count++] = name;
    }
    out->more = count > start && count - start > PAGE;
    free(order);
    free(shown);
    return OK;
}

// ---- kernels

static const uint8_t NONCE[16] = {7, 7, 7, 7, 7, 7, 7, 7, 7, 7, 7, 7, 7, 7, 7, 7};
static const struct part TOP = {3, (const uint8_t *)"top"};
static uint32_t sum;

static void need(fault failed) {
    if (failed) {
        fprintf(stderr, "refused: %d\n", failed);
        exit(1);
    }
}

// The path of the name with this number: the digits of 16 bytes that differ from those of each other number.
static struct path numbered(uint32_t number) {
    uint32_t scattered = number * 2246822519u;
    char *name = must(malloc(33));
    sprintf(name, "%08x616161616161616161616161", scattered);
    return (struct path){2, {TOP, {32, (const uint8_t *)name}}};
}

static struct path top_path(void) { return (struct path){1, {TOP}}; }

// The directory, encrypted or not, with that many files.
static void set_up(bool encrypted, uint32_t files) {
    struct path top = top_path();
    new_node(DIR, NULL, NONCE);
    need(make(&top, DIR, NONCE));
    if (encrypted) {
        uint8_t raw[64];
        memset(raw, 0x5a, sizeof raw);
        add_key(raw, sizeof raw);
        static const uint8_t policy[8] = {2, 1, 4, 3};
        struct node *node = &nodes[1];
        memcpy(node->context, policy, 8);
        memcpy(node->context + 8, master.id, ID);
        memcpy(node->context + POLICY, NONCE, 16);
        node->encrypted = true;
    }
    for (uint32_t i = 0; i < files; i++) {
        struct path path = numbered(i);
        need(make(&path, FIL, NONCE));
    }
}

static void make_and_take(enum kind kind, uint32_t names, long count) {
    struct path paths[RUN_NAMES];
    set_up(true, names - 1);
    for (uint32_t at = 0; at < RUN_NAMES; at++) paths[at] = numbered(names + at);
    for (long run = 0; run < count; run++)
        for (int at = 0; at < RUN_NAMES; at++) {
            need(make(&paths[at], kind, NONCE));
            need(take_away(&paths[at], kind));
            sum += 2;
        }
}

static void look(bool cold, uint32_t names, long count) {
    struct path paths[RUN_NAMES];
    set_up(true, names);
    for (uint32_t at = 0; at < RUN_NAMES; at++) paths[at] = numbered(at * 2654435761u % names);
    for (long run = 0; run < count; run++)
        for (int at = 0; at < RUN_NAMES; at++) {
            struct stat told;
            if (cold) drop_caches();
            need(stat_at(&paths[at], &told));
            sum += told.node + told.size + cold;
        }
}

// more names than the other mount caches, one after the other
static void look_round(long count) {
    struct path paths[ROUND_NAMES];
    set_up(true, ROUND_NAMES);
    for (uint32_t at = 0; at < ROUND_NAMES; at++) paths[at] = numbered(at);
    for (long run = 0; run < count; run++)
        for (int at = 0; at < ROUND_NAMES; at++) {
            struct stat told;
            need(stat_at(&paths[at], &told));
            sum += told.node + told.size;
        }
}

static void move_there_and_back(long count) {
    struct path paths[RUN_NAMES];
    set_up(true, FEW);
    for (uint32_t at = 0; at < RUN_NAMES / 2; at++) {
        paths[2 * at] = numbered(at);
        paths[2 * at + 1] = numbered(FEW + at);
    }
    for (long run = 0; run < count; run++)
        for (int at = 0; at < RUN_NAMES; at += 2) {
            need(rename_to(&paths[at], &paths[at + 1]));
            need(rename_to(&paths[at + 1], &paths[at]));
            sum += 2;
        }
}

static void tell_names(bool encrypted, long count) {
    struct path top = top_path();
    set_up(encrypted, MAX_ENTRIES);
    for (long run = 0; run < count; run++) {
        struct listing told;
        need(list(&top, PAGE_START, &told));
        const struct text *last = told.names[told.count - 1];
        sum += last->bytes[last->len - 1];
        for (uint32_t i = 0; i < told.count; i++) free(told.names[i]);
    }
}

// FIPS 197, C.3, and that names come back.
static int check(void) {
    uint8_t key[32], block[16], words[240], out[16];
    for (int i = 0; i < 32; i++) key[i] = (uint8_t)i;
    for (int i = 0; i < 16; i++) block[i] = (uint8_t)(17 * i);
    expand(key, words);
    vector sealed = encrypt(words, _mm_loadu_si128((vector *)block));
    _mm_storeu_si128((vector *)out, sealed);
    bool well = out[0] == 0x8e && out[15] == 0x89;
    _mm_storeu_si128((vector *)out, decrypt(words, sealed));
    well = well && memcmp(out, block, 16) == 0;
    struct names_key names;
    memcpy(names.words, words, 240);
    for (size_t len = 16; len < 256; len++) {
        uint8_t text[256], was[256];
        for (size_t i = 0; i < len; i++) was[i] = text[i] = (uint8_t)(i * 37 + len);
        cts_encrypt(&names, text, len);
        well = well && memcmp(text, was, len) != 0;
        cts_decrypt(&names, text, len);
        well = well && memcmp(text, was, len) == 0;
    }
    printf("%s\n", well ? "well" : "NOT WELL");
    return well ? 0 : 1;
}

// The number after the family's name, from 1 to 4,096.
static uint32_t number_of(const char *name, const char *family) {
    size_t len = strlen(family);
    long number = strncmp(name, family, len) == 0 ? atol(name + len) : 0;
    return number > 0 && number <= MAX_ENTRIES ? (uint32_t)number : 0;
}

int main(int argc, char **argv) {
    const char *name = argc > 1 ? argv[1] : "";
    long count = argc > 2 ? atol(argv[2]) : 0;
    uint32_t names;
    if (!strcmp(name, "check")) return check();
    if (!strcmp(name, "mkdir")) make_and_take(DIR, FEW, count);
    else if (!strcmp(name, "unlink")) make_and_take(FIL, FEW, count);
    else if (!strcmp(name, "stat-warm")) look(false, FEW, count);
    else if (!strcmp(name, "stat-round")) look_round(count);
    else if (!strcmp(name, "stat-cold")) look(true, FEW, count);
    else if (!strcmp(name, "rename")) move_there_and_back(count);
    else if (!strcmp(name, "list-plain")) tell_names(false, count);
    else if (!strcmp(name, "list-encrypted")) tell_names(true, count);
    else if ((names = number_of(name, "mkdir-"))) make_and_take(DIR, names, count);
    else if ((names = number_of(name, "unlink-"))) make_and_take(FIL, names, count);
    else if ((names = number_of(name, "stat-"))) look(false, names, count);
    else return 2;
    printf("%s %ld %u\n", name, count, sum);
    return 0;
}
