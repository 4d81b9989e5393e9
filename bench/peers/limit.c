/* What queries of lineitem take at the least: bare loops of one thread over columns as narrow as their numbers allow.
   It reads lines, see Program in system.py. Only the form of lineitem.csv is known: eleven fields without quotes. */
#define _GNU_SOURCE
#include <stdint.h>
#include <stdio.h>
#include <stdlib.h>
#include <string.h>
#include <time.h>

enum { ORDER, PART, SUPPLIER, QUANTITY, PRICE, DISCOUNT, TAX, RETURNED, STATUS, SHIPPED, MODE, COLUMNS };
enum { NO_TAX = 127, PARTS = 100001 };
typedef struct {
    int64_t rows;
    int32_t *part, *price;
    int16_t *shipped;
    int8_t *quantity, *discount, *tax, *group;
} Table;
static Table table, table4;

static double now(void) {
    struct timespec time;
    clock_gettime(CLOCK_MONOTONIC, &time);
    return time.tv_sec + time.tv_nsec * 1e-9;
}

static char *read_file(const char *path, int64_t *size) {
    FILE *file = fopen(path, "rb");
    if (!file) return NULL;
    fseek(file, 0, SEEK_END);
    *size = ftell(file);
    rewind(file);
    char *bytes = malloc(*size + 1);
    if (fread(bytes, 1, *size, file) != (size_t)*size) exit(1);
    bytes[*size] = 0;
    fclose(file);
    return bytes;
}

/* Days since 1970-01-01. */
static int64_t day(int64_t year, int64_t month, int64_t day_of_month) {
    year -= month <= 2;
    int64_t era = year / 400, in_era = year - era * 400;
    int64_t in_year = (153 * (month + (month > 2 ? -3 : 9)) + 2) / 5 + day_of_month - 1;
    return era * 146097 + in_era * 365 + in_era / 4 - in_era / 100 + in_year - 719468;
}

/* A field as a number: a date's day, the bytes of a text, NO_TAX for NULL. */
static int64_t field(const char **at, int column) {
    const char *byte = *at;
    int64_t value = 0;
    if (column == SHIPPED) {
        value = day(atoi(byte), atoi(byte + 5), atoi(byte + 8));
        byte += 10;
    } else if (*byte == '\\') {
        value = NO_TAX;
        byte += 2;
    } else if (column == RETURNED || column == STATUS || column == MODE) {
        for (; *byte != ',' && *byte != '\n'; byte++) value = value << 8 | (uint8_t)*byte;
    } else {
        for (; *byte >= '0'; byte++) value = value * 10 + (*byte - '0');
    }
    *at = byte + 1;
    return value;
}

static void free_columns(Table *it) {
    free(it->part), free(it->price), free(it->shipped), free(it->quantity), free(it->discount), free(it->tax), free(it->group);
}

static double load(Table *it, const char *path) {
    double begun = now();
    int64_t size, values[COLUMNS];
    char *bytes = read_file(path, &size);
    if (!bytes) return -1;
    free_columns(it);
    it->rows = 0;
    for (int64_t place = 0; place < size; place++) it->rows += bytes[place] == '\n';
    it->part = malloc(it->rows * 4), it->price = malloc(it->rows * 4), it->shipped = malloc(it->rows * 2);
    it->quantity = malloc(it->rows), it->discount = malloc(it->rows), it->tax = malloc(it->rows), it->group = malloc(it->rows);
    const char *at = bytes;
    for (int64_t row = 0; row < it->rows; row++) {
        for (int column = 0; column < COLUMNS; column++) values[column] = field(&at, column);
        it->part[row] = values[PART], it->price[row] = values[PRICE], it->shipped[row] = values[SHIPPED];
        it->quantity[row] = values[QUANTITY], it->discount[row] = values[DISCOUNT], it->tax[row] = values[TAX];
        it->group[row] = (values[RETURNED] == 'A' ? 0 : values[RETURNED] == 'N' ? 2 : 4) + (values[STATUS] == 'O');
    }
    free(bytes);
    return now() - begun;
}

__attribute__((noinline)) static int64_t revenue(const Table *it) {
    int16_t low = day(1994, 1, 1), high = day(1995, 1, 1);
    int64_t total = 0;
    for (int64_t row = 0; row < it->rows; row++) {
        int64_t keep = (it->shipped[row] >= low) & (it->shipped[row] < high) & (it->discount[row] >= 5)
            & (it->discount[row] <= 7) & (it->quantity[row] < 24);
        total += (int64_t)it->price[row] * it->discount[row] & -keep;
    }
    return total;
}

static double by_status(const Table *it, FILE *out) {
    static struct { int64_t quantity, price, discounted, taxed, taxes, rows; } groups[6];
    double begun = now();
    int16_t last = day(1998, 9, 2);
    memset(groups, 0, sizeof groups);
    for (int64_t row = 0; row < it->rows; row++) if (it->shipped[row] <= last) {
        int group = it->group[row], has_tax = it->tax[row] != NO_TAX;
        groups[group].quantity += it->quantity[row];
        groups[group].price += it->price[row];
        groups[group].discounted += (int64_t)it->price[row] * (100 - it->discount[row]);
        groups[group].taxed += it->quantity[row] * it->tax[row] & -has_tax;
        groups[group].taxes += has_tax;
        groups[group].rows++;
    }
    double seconds = now() - begun;
    for (int group = 0; group < 6; group++) if (groups[group].rows)
        fprintf(out, "%c,%c,%ld,%ld,%ld,%ld,%ld,%ld\n", "ANR"[group / 2], "FO"[group % 2], groups[group].quantity,
            groups[group].price, groups[group].discounted, groups[group].taxed, groups[group].taxes, groups[group].rows);
    return seconds;
}

/* Sums by part in an array, of which the ten largest are kept in order where `limit` is 10. */
static double by_part(const Table *it, FILE *out, int limit) {
    double begun = now();
    struct { int64_t quantity, rows; } *groups = calloc(PARTS, sizeof *groups);
    for (int64_t row = 0; row < it->rows; row++) {
        groups[it->part[row]].quantity += it->quantity[row];
        groups[it->part[row]].rows++;
    }
    int best[11], count = 0;
    for (int part = 0; limit && part < PARTS; part++) if (groups[part].rows) {
        int place = count < limit ? count++ : limit;
        for (; place && groups[best[place - 1]].quantity < groups[part].quantity; place--) best[place] = best[place - 1];
        best[place] = part;
    }
    double seconds = now() - begun;
    for (int place = 0; place < (limit ? count : PARTS); place++) {
        int part = limit ? best[place] : place;
        if (groups[part].rows) fprintf(out, "%d,%ld,%ld\n", part, groups[part].quantity, groups[part].rows);
    }
    free(groups);
    return seconds;
}

static double run(const char *query, FILE *out) {
    if (!strncmp(query, "a_scan", 6)) {
        double begun = now();
        int64_t total = revenue(query[6] == '1' ? &table : &table4);
        double seconds = now() - begun;
        fprintf(out, "%ld\n", total);
        return seconds;
    }
    if (!strcmp(query, "b_group6")) return by_status(&table, out);
    if (!strcmp(query, "d_group100k")) return by_part(&table, out, 10);
    if (!strcmp(query, "d_group100k_out")) return by_part(&table, out, 0);
    return -1;
}

int main(void) {
    static char line[9000];
    char command[32], name[4096], path[4096];
    while (fgets(line, sizeof line, stdin) && sscanf(line, "%31s %4095s %4095s", command, name, path) == 3) {
        double seconds = -1;
        if (!strcmp(command, "load") && !strncmp(name, "lineitem", 8)) {
            seconds = load(name[8] ? &table4 : &table, path);
        } else if (!strcmp(command, "run")) {
            FILE *out = fopen(path, "w");
            seconds = run(name, out);
            fclose(out);
        }
        if (seconds < 0) printf("no\n"); else printf("ok %.9f\n", seconds);
        fflush(stdout);
    }
    return 0;
}
