// The statement of the unit file on standard input, in plain C: the yardstick of bench/statement.sh.
// Same input and same output bytes as the program `statement`.
#include <stdint.h>
#include <stdio.h>
#include <string.h>

enum { MOST_UNITS = 2048, MOST_COSTS = 512, MOST_FILE = 65536, MOST_CUSTOMERS = 256 };
static const uint64_t LIMIT = 2147483647;

struct unit { unsigned customer, day, hour, subzone, use; uint32_t quantity; };
struct cost { unsigned line, subzone, day, hour; uint32_t amount; };
struct line { int zonal, hourly, daily, counted[5], station; };

// By number: whether a line's cells are of a subzone, of an hour and of a day; the counted uses; and
// whether it has a station part.
static const struct line lines[8] = {
    {0},
    {1, 1, 1, {1, 0, 0, 0, 0}, 0},
    {0, 1, 1, {1, 0, 0, 0, 0}, 0},
    {1, 1, 1, {1, 0, 0, 0, 0}, 1},
    {0, 1, 1, {1, 1, 1, 0, 0}, 1},
    {1, 0, 1, {1, 0, 0, 0, 0}, 1},
    {0, 0, 0, {1, 1, 1, 0, 1}, 0},
    {0, 0, 0, {1, 1, 1, 0, 1}, 0},
};

static unsigned customers, days, subzones;
static struct unit units[MOST_UNITS];
static struct cost costs[MOST_COSTS];
static size_t unit_count, cost_count;
static uint64_t all_quantities;

static unsigned two(const uint8_t *p) { return p[0] << 8 | p[1]; }
static uint32_t four(const uint8_t *p) { return (uint32_t)two(p) << 16 | two(p + 2); }
static int within(unsigned x, unsigned most) { return x >= 1 && x <= most; }

static int add_unit(const uint8_t *p) {
    struct unit u = {two(p), p[2], p[3], p[4], p[5], four(p + 6)};
    if (u.customer >= customers || !within(u.day, days) || !within(u.hour, 24) || !within(u.subzone, subzones) ||
        u.use > 4 || u.quantity > LIMIT)
        return 8;
    if (unit_count == MOST_UNITS) return 10;
    if (all_quantities + u.quantity > LIMIT) return 11;
    all_quantities += u.quantity;
    units[unit_count++] = u;
    return 0;
}

static int add_cost(const uint8_t *p) {
    struct cost c = {p[0], p[1], p[2], p[3], four(p + 4)};
    if (c.line < 1 || c.line > 7) return 8;
    const struct line *l = &lines[c.line];
    if (!(l->zonal ? within(c.subzone, subzones) : c.subzone == 0) || !(l->daily ? within(c.day, days) : c.day == 0) ||
        !(l->hourly ? within(c.hour, 24) : c.hour == 0) || c.amount < 1 || c.amount > LIMIT)
        return 8;
    if (cost_count == MOST_COSTS) return 10;
    uint64_t sum = c.amount;
    for (size_t i = 0; i < cost_count; i++)
        if (costs[i].line == c.line && costs[i].subzone == c.subzone && costs[i].day == c.day) sum += costs[i].amount;
    if (sum > LIMIT) return 11;
    costs[cost_count++] = c;
    return 0;
}

// Reads one record, and gives its refusal or 0. `*place` is moved behind it.
static int read_record(const uint8_t *file, size_t size, size_t *place) {
    size_t at = *place;
    if (size - at < 2) return 17;
    size_t length = two(file + at);
    if (length == 0 || size - at - 2 < length) return 17;
    unsigned kind = file[at + 2];
    const uint8_t *fields = file + at + 3;
    if ((kind == 0 && length != 5) || (kind == 1 && length != 11) || (kind == 2 && length != 9) ||
        (kind == 3 && (length < 2 || length > 201)))
        return 17;
    if (kind > 3 || (kind == 0) != (at == 1)) return 18;
    *place = at + 2 + length;
    if (kind == 0) {
        customers = two(fields);
        days = fields[2];
        subzones = fields[3];
        return !within(customers, MOST_CUSTOMERS) || !within(days, 31) || !within(subzones, 32) ? 1 : 0;
    }
    if (kind == 1) return add_unit(fields);
    if (kind == 2) return add_cost(fields);
    for (size_t i = 0; i < length - 1; i++)
        if (fields[i] < 32 || fields[i] > 126) return 18;
    return 0;
}

static int load(const uint8_t *file, size_t size) {
    if (size == 0 || size > MOST_FILE || file[0] != 1) return 16;
    if (size == 1) return 18;
    for (size_t place = 1; place < size;) {
        int refusal = read_record(file, size, &place);
        if (refusal) return refusal;
    }
    return 0;
}

// Shares a pool by the running sums of the units, and adds the shares to a column.
static void share(uint64_t pool, const uint64_t *column_units, uint64_t all, uint64_t *column) {
    uint64_t running = 0, before = 0;
    for (unsigned k = 0; k < customers; k++) {
        running += column_units[k];
        uint64_t upto = pool * running / all;
        column[k] += upto - before;
        before = upto;
    }
}

// The counted units and the station units of each customer in a cell; 0 stands for any subzone, day or
// hour. Gives the sum of the counted ones.
static uint64_t gather(const struct line *l, unsigned subzone, unsigned day, unsigned hour, uint64_t *counted,
                       uint64_t *station) {
    uint64_t all = 0;
    memset(counted, 0, customers * sizeof *counted);
    memset(station, 0, customers * sizeof *station);
    for (size_t i = 0; i < unit_count; i++) {
        const struct unit *u = &units[i];
        if ((subzone && u->subzone != subzone) || (day && u->day != day) || (hour && u->hour != hour)) continue;
        if (l->counted[u->use]) {
            counted[u->customer] += u->quantity;
            all += u->quantity;
        } else if (u->use == 4)
            station[u->customer] += u->quantity;
    }
    return all;
}

static char text[MOST_FILE];
static size_t text_length;

static void put_number(uint64_t number) {
    char digits[20];
    size_t count = 0;
    do digits[count++] = (char)('0' + number % 10);
    while (number /= 10);
    while (count) text[text_length++] = digits[--count];
}

static void put_text(const char *word) {
    while (*word) text[text_length++] = *word++;
}

// Bills a line, and writes its rows; gives the refusal or 0.
static int put_line(unsigned number) {
    static uint64_t cells[33][32][25], charges[MOST_CUSTOMERS], stations[MOST_CUSTOMERS], credits[MOST_CUSTOMERS];
    static uint64_t pools[33][32];
    uint64_t counted[MOST_CUSTOMERS], station[MOST_CUSTOMERS], stranded = 0, sums[3] = {0};
    const struct line *l = &lines[number];
    int has_costs = 0;
    memset(cells, 0, sizeof cells);
    memset(pools, 0, sizeof pools);
    memset(charges, 0, sizeof charges);
    memset(stations, 0, sizeof stations);
    memset(credits, 0, sizeof credits);
    for (size_t i = 0; i < cost_count; i++) {
        const struct cost *c = &costs[i];
        if (c->line != number) continue;
        has_costs = 1;
        cells[c->subzone][c->day][c->hour] += c->amount;
        pools[c->subzone][c->day] += c->amount;
    }
    if (!has_costs) return 0;
    for (unsigned s = 0; s <= subzones; s++)
        for (unsigned d = 0; d <= days; d++) {
            uint64_t pool = pools[s][d];
            if (!pool) continue;
            for (unsigned h = 0; h <= 24; h++) {
                if (!cells[s][d][h]) continue;
                uint64_t all = gather(l, s, d, h, counted, station);
                if (all)
                    share(cells[s][d][h], counted, all, charges);
                else
                    stranded += cells[s][d][h];
            }
            if (!l->station) continue;
            uint64_t all = gather(l, s, d, 0, counted, station), recovered = 0;
            if (!all) continue;
            for (unsigned k = 0; k < customers; k++) {
                uint64_t charge = pool * station[k] / all;
                stations[k] += charge;
                recovered += charge;
            }
            if (recovered > LIMIT) return 14;
            share(recovered, counted, all, credits);
        }
    for (unsigned k = 0; k < customers; k++) {
        if (!charges[k] && !stations[k] && !credits[k]) continue;
        uint64_t row[5] = {number, k, charges[k], stations[k], credits[k]};
        for (int i = 0; i < 5; i++) {
            put_number(row[i]);
            put_text(i < 4 ? " " : "\n");
        }
        for (int i = 0; i < 3; i++) sums[i] += row[2 + i];
    }
    put_number(number);
    put_text(" sum");
    for (int i = 0; i < 3; i++) {
        put_text(" ");
        put_number(sums[i]);
    }
    put_text(" 0 0 "); // the running sums leave nothing short or over
    put_number(stranded);
    put_text("\n");
    return 0;
}

int main(void) {
    static uint8_t file[MOST_FILE + 1];
    size_t size = fread(file, 1, sizeof file, stdin);
    int refusal = load(file, size);
    for (unsigned number = 1; number <= 7 && !refusal; number++) refusal = put_line(number);
    if (refusal) {
        text_length = 0;
        put_text("refused ");
        put_number((uint64_t)refusal);
        put_text("\n");
    }
    fwrite(text, 1, text_length, stdout);
    if (refusal) fputs("refused\n", stderr);
    return refusal ? 1 : 0;
}
