/* The same day in SQLite's memory: a table of cells and a table of policies, and one transaction after another on one connection. */
#include <sqlite3.h>
#include <stddef.h>
#include <stdint.h>
#include <stdio.h>
#include <stdlib.h>

struct policy {
    uint16_t subject, kind, number;
};

enum { BEGIN, COMMIT, OWN_POLICY, MAY, READ_CELL, WRITE_CELL, STATEMENTS };

/* The rights are those of the vector order. A policy is found by its id, a cell by its id, and what permits a call by the index on the
   policies' objects; ?3 has a bit for each policy that the transaction has deployed. */
static const char *const texts[STATEMENTS] = {
    "BEGIN",
    "COMMIT",
    "SELECT 1 FROM policies WHERE id = ?1 AND subject = ?2",
    "SELECT 1 FROM policies WHERE kind = 0 AND number = ?1 AND (right & ?2) <> 0 AND (?3 >> id) & 1 LIMIT 1",
    "SELECT value FROM cells WHERE id = ?1",
    "UPDATE cells SET value = ?2 WHERE id = ?1",
};

struct store {
    sqlite3 *connection;
    sqlite3_stmt *statements[STATEMENTS];
};

static void need(struct store *s, int got, int wanted) {
    if (got != wanted) {
        fprintf(stderr, "sqlite: %s\n", sqlite3_errmsg(s->connection));
        exit(1);
    }
}

static void all(struct store *s, const char *text) {
    need(s, sqlite3_exec(s->connection, text, NULL, NULL, NULL), SQLITE_OK);
}

/* Runs a statement that answers no row. */
static void run(struct store *s, int which) {
    need(s, sqlite3_step(s->statements[which]), SQLITE_DONE);
    sqlite3_reset(s->statements[which]);
}

/* Runs a statement that answers at most one row of one number. Whether there is one. */
static int get(struct store *s, int which, uint32_t *value) {
    sqlite3_stmt *statement = s->statements[which];
    int got = sqlite3_step(statement);
    if (got == SQLITE_ROW)
        *value = (uint32_t)sqlite3_column_int64(statement, 0);
    else
        need(s, got, SQLITE_DONE);
    sqlite3_reset(statement);
    return got == SQLITE_ROW;
}

/* What of SQLite takes time and is of no use here is off: threads, statistics, synchronous writing, locks on files. Without a journal no transaction can
   be given up, so the caller says whether there is one, in memory. */
struct store *sqlite_day_new(int journal, const uint32_t *rights, const struct policy *policies, size_t policy_count, size_t cell_count) {
    struct store *s = calloc(1, sizeof *s);
    if (s == NULL)
        exit(1);
    sqlite3_config(SQLITE_CONFIG_SINGLETHREAD);
    sqlite3_config(SQLITE_CONFIG_MEMSTATUS, 0);
    need(s, sqlite3_open(":memory:", &s->connection), SQLITE_OK);
    all(s, journal ? "PRAGMA journal_mode = MEMORY" : "PRAGMA journal_mode = OFF");
    all(s, "PRAGMA synchronous = OFF; PRAGMA locking_mode = EXCLUSIVE; PRAGMA temp_store = MEMORY");
    all(s, "CREATE TABLE cells (id INTEGER PRIMARY KEY, value INTEGER NOT NULL)");
    all(s, "CREATE TABLE policies (id INTEGER PRIMARY KEY, subject INTEGER NOT NULL, kind INTEGER NOT NULL, number INTEGER NOT NULL, right INTEGER NOT NULL)");
    all(s, "CREATE INDEX objects ON policies (kind, number)");
    char text[200];
    all(s, "BEGIN");
    for (size_t i = 0; i < cell_count; i++) {
        snprintf(text, sizeof text, "INSERT INTO cells VALUES (%zu, 0)", i);
        all(s, text);
    }
    for (size_t i = 0; i < policy_count; i++) {
        struct policy p = policies[i];
        snprintf(text, sizeof text, "INSERT INTO policies VALUES (%zu, %u, %u, %u, %u)", i, p.subject, p.kind, p.number, (unsigned)rights[i]);
        all(s, text);
    }
    all(s, "COMMIT; ANALYZE");
    for (int i = 0; i < STATEMENTS; i++)
        need(s, sqlite3_prepare_v3(s->connection, texts[i], -1, SQLITE_PREPARE_PERSISTENT, &s->statements[i], NULL), SQLITE_OK);
    return s;
}

const char *sqlite_day_version(void) {
    return sqlite3_libversion();
}

static void put_cell(struct store *s, uint32_t cell, uint32_t value) {
    sqlite3_bind_int64(s->statements[WRITE_CELL], 1, cell);
    sqlite3_bind_int64(s->statements[WRITE_CELL], 2, value);
    run(s, WRITE_CELL);
}

void sqlite_day_put_cells(struct store *s, const uint32_t *cells, size_t cell_count) {
    run(s, BEGIN);
    for (size_t i = 0; i < cell_count; i++)
        put_cell(s, (uint32_t)i, cells[i]);
    run(s, COMMIT);
}

static uint32_t get_cell(struct store *s, uint32_t cell) {
    uint32_t value = 0;
    sqlite3_bind_int64(s->statements[READ_CELL], 1, cell);
    get(s, READ_CELL, &value);
    return value;
}

void sqlite_day_get_cells(struct store *s, uint32_t *cells, size_t cell_count) {
    for (size_t i = 0; i < cell_count; i++)
        cells[i] = get_cell(s, (uint32_t)i);
}

/* Whether a deployed policy of the cell permits the operation of this weight. */
static int may(struct store *s, uint32_t cell, uint32_t weight, uint64_t deployed) {
    uint32_t one;
    sqlite3_stmt *statement = s->statements[MAY];
    sqlite3_bind_int64(statement, 1, cell);
    sqlite3_bind_int64(statement, 2, weight);
    sqlite3_bind_int64(statement, 3, (sqlite3_int64)deployed);
    return get(s, MAY, &one);
}

static int owns(struct store *s, uint32_t policy, uint32_t subject) {
    uint32_t one;
    sqlite3_bind_int64(s->statements[OWN_POLICY], 1, policy);
    sqlite3_bind_int64(s->statements[OWN_POLICY], 2, subject);
    return get(s, OWN_POLICY, &one);
}

static uint32_t two(const uint8_t *at) {
    return (uint32_t)at[0] << 8 | at[1];
}

/* Writes a line, G and a number, and answers its end. */
static uint8_t *put_line(uint8_t *line, uint32_t number) {
    uint8_t digits[10];
    int count = 0;
    do
        digits[count++] = (uint8_t)('0' + number % 10);
    while ((number /= 10) != 0);
    *line++ = 'G';
    *line++ = ' ';
    while (count > 0)
        *line++ = digits[--count];
    *line++ = '\n';
    return line;
}

static void stop(const char *why) {
    fprintf(stderr, "sqlite_day: %s\n", why);
    exit(1);
}

/* Runs a sound tape on which transactions come one after another, and nothing is refused: openings, deploys, reads, writes and commits. SQLite's transactions
   need no number. Answers how many bytes of lines there are. */
size_t sqlite_day_run(struct store *s, const uint8_t *tape, size_t tape_len, uint8_t *lines) {
    uint8_t *end = lines;
    uint32_t subject = 0, opened = 0, commits = 0;
    uint64_t deployed = 0;
    for (const uint8_t *at = tape; at < tape + tape_len; at += 3 + two(at + 1)) {
        const uint8_t *content = at + 3;
        switch (at[0]) {
        case 1:
            run(s, BEGIN);
            subject = two(content);
            deployed = 0;
            end = put_line(end, ++opened);
            break;
        case 2:
            if (!owns(s, two(content + 2), subject))
                stop("a deploy is refused");
            deployed |= (uint64_t)1 << two(content + 2);
            end = put_line(end, 0);
            break;
        case 3:
            if (!may(s, two(content + 2), 4, deployed))
                stop("a read is refused");
            end = put_line(end, get_cell(s, two(content + 2)));
            break;
        case 4:
            if (!may(s, two(content + 2), 2, deployed))
                stop("a write is refused");
            put_cell(s, two(content + 2), two(content + 4) << 16 | two(content + 6));
            end = put_line(end, 0);
            break;
        case 7:
            run(s, COMMIT);
            end = put_line(end, ++commits);
            break;
        default:
            stop("a request that this day has not");
        }
    }
    return (size_t)(end - lines);
}
