/*
 * The numbers of a table, one after the other (docs/RULES.md, 3.6), for people to see. The library has its own code.
 */
#include "table.h"

struct table start_table(struct bytes bytes)
{
    struct table table = {bytes, 0, 0, TIMER_S, TIMER_S, 0, 0, 0, {0}, false};
    return table;
}

bool read_part(struct table *table)
{
    enum part part = table->next;
    if (part == TABLE_END || table->damaged)
        return false;
    table->start = table->at;
    if (!read_number(table->bytes, &table->at, &table->values[part])) {
        table->damaged = true;
        return false;
    }
    table->part = part;
    table->of = part <= ROW_C ? table->rows : table->servers;
    switch (part) {
    case ROW_COUNT:
    case ROW_C:
        table->rows += part == ROW_C;
        table->next = table->rows < table->values[ROW_COUNT] ? ROW_X : SERVER_COUNT;
        break;
    case SERVER_COUNT:
    case SERVER_B:
        table->servers += part == SERVER_B;
        table->next = table->servers < table->values[SERVER_COUNT] ? SERVER_A : TABLE_END;
        break;
    default:
        table->next = part + 1;
    }
    return true;
}

const char *bad_table_byte(struct bytes bytes, uint64_t place)
{
    struct table table = start_table(bytes);
    while (read_part(&table))
        continue;
    if (table.next == SERVER_COUNT && table.start == bytes.length && place == bytes.length)
        return "the bytes end there, where the server count should stand, 00 if there is no server";
    return bad_byte(bytes, place);
}

struct content content_of(struct bytes bytes)
{
    struct content content = {0};
    struct table table = start_table(bytes);
    while (read_part(&table)) {
        const uint64_t *values = table.values;
        if (table.part == TIMER_P) {
            content.s = values[TIMER_S];
            content.p = values[TIMER_P];
        } else if (table.part == ROW_C && content.row_count < JYRMEKKO_MOST_ROWS) {
            content.rows[content.row_count++] = (struct row){values[ROW_X], values[ROW_Y], values[ROW_D], values[ROW_C]};
        } else if (table.part == SERVER_B && content.server_count < JYRMEKKO_MOST_SERVERS) {
            content.servers[content.server_count++] = (struct server){values[SERVER_A], values[SERVER_B]};
        }
    }
    return content;
}

uint64_t row_demand(struct row row, uint64_t length)
{
    return length < row.d ? 0 : ((length - row.d) / row.y + 1) * row.x * row.c;
}

uint64_t server_demand(struct server server, uint64_t length)
{
    return server.a * length / server.b;
}

uint64_t taken_ticks(const struct content *content, uint64_t length)
{
    uint64_t rest = length % content->p;
    return length / content->p * content->s + (rest < content->s ? rest : content->s);
}

uint64_t common_divisor(uint64_t one, uint64_t other)
{
    while (other > 0) {
        uint64_t rest = one % other;
        one = other;
        other = rest;
    }
    return one;
}

uint64_t common_multiple(uint64_t multiple, uint64_t number)
{
    if (multiple < 1 || multiple > LARGEST_PERIOD || number < 1 || number > LARGEST_PERIOD)
        return 0;
    return multiple / common_divisor(multiple, number) * number;
}

uint64_t period_of(const struct content *content)
{
    uint64_t period = common_multiple(1, content->p);
    for (size_t i = 0; i < content->row_count; i++)
        period = common_multiple(period, content->rows[i].y);
    for (size_t i = 0; i < content->server_count; i++)
        period = content->servers[i].a > 0 ? common_multiple(period, content->servers[i].b) : 0;
    if (period < 1 || period > LARGEST_PERIOD)
        stop(RIG_NO_ANSWER, "the library's verdict accepts a table that the rules refuse");
    return period;
}
