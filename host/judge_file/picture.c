/* The trail and the loop as a picture for graphviz: a box for each record with its fields, an arrow for each step. */
#include "sheet.h"

/* A record: its kind's name and a cell for each field. */
static void draw_record(const struct sheet *sheet, size_t node, uint32_t kind, int row)
{
    printf("  r%zu [label=\"", node);
    if (row)
        printf("row %zu: ", sheet->said.row);
    put_kind(stdout, sheet, kind);
    for (size_t field = 1; field <= width_of(sheet, kind); field++)
        printf("|<f%zu> %zu", field, field);
    printf("\"];\n");
}

static void draw_arrow(const struct sheet *sheet, size_t k, size_t from, size_t to)
{
    struct followup_step step = followup_step_at(sheet->steps, sizeof sheet->steps, k);
    printf("  r%zu", from);
    if (step.from != 0)
        printf(":f%u:s", (unsigned)step.from);
    printf(" -> r%zu", to);
    if (step.to != 0)
        printf(":f%u:n", (unsigned)step.to);
    const char *way = step.to == 0 ? "reaching" : step.fresh ? "fresh" : "carried";
    const char *style = step.to == 0 ? "dotted" : step.fresh ? "bold" : "solid";
    printf(" [label=\" rule %u, H line %u, %s\", style=%s%s%s];\n", (unsigned)step.rule, (unsigned)step.head, way, style,
           k >= sheet->said.trail ? ", color=firebrick, fontcolor=firebrick" : "", to < from ? ", constraint=false" : "");
}

void draw_steps(const struct sheet *sheet)
{
    const struct followup_judge_reply *said = &sheet->said;
    size_t steps = said->trail + said->loop;
    printf("digraph steps {\n  node [shape=record, fontname=\"sans-serif\"];\n  edge [fontname=\"sans-serif\", fontsize=10];\n");
    printf("  label=\"%s\"; fontname=\"sans-serif\";\n", said->verdict == FOLLOWUP_ENDLESS ? "endless: the loop is red" : "settles");
    if (said->row != 0)
        draw_record(sheet, 0, number_in(sheet, line_of(sheet, 'R', said->row), 1), 1);
    for (size_t k = 0; k < steps; k++) {
        /* the last record of the loop has the shape of its first */
        int returns = said->loop != 0 && k + 1 == steps;
        if (!returns)
            draw_record(sheet, k + 1, step_lines(sheet, k).made, 0);
        draw_arrow(sheet, k, k, returns ? said->trail : k + 1);
    }
    printf("}\n");
}
