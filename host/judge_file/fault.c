/* What is wrong with a line that is not in the form (refusal 2), for the person who wrote it. The library says only that it is not:
 * this looks at the bytes for the mistakes that people make. */
#include "sheet.h"

#include <string.h>

/* What is wrong with the nine bytes of a column; NULL where nothing is. */
static const char *fault_of_column(const uint8_t *column)
{
    if (column[0] != ' ')
        return column[0] >= '0' && column[0] <= '9' ? "a number has more than eight digits, or its column is not nine places wide"
                                                    : "the first place of a column is not blank";
    size_t at = 1;
    while (at < 9 && column[at] == ' ')
        at++;
    if (at == 9)
        return "a column is empty";
    size_t first = at;
    while (at < 9 && column[at] >= '0' && column[at] <= '9')
        at++;
    if (at < 9)
        return column[at] == ' ' ? "a number does not end at the right edge of its column (a column is nine places wide)"
                                 : "a column holds something that is no digit";
    if (column[first] == '0' && first < 8)
        return "a number has a leading zero";
    return NULL;
}

const char *fault_of_line(const uint8_t *line, size_t size)
{
    if (size == 0 || line[size - 1] != '\n')
        return "the last line does not end with a line feed";
    if (size == 1)
        return "the line is empty";
    if (line[size - 2] == '\r')
        return "a carriage return stands before the line feed (save the file with line feeds alone)";
    if (memchr(line, '\t', size) != NULL)
        return "the line holds a tab; columns are padded with blanks";
    if (memchr("kbhr", line[0], 4) != NULL)
        return "the letter is a small one; K, B, H and R are wanted";
    if (memchr("KBHR", line[0], 4) == NULL)
        return "the line does not begin with K, B, H or R";
    if (line[size - 2] == ' ')
        return "blanks stand at the end of the line";
    if ((size - 2) % 9 != 0)
        return "the line is not a letter and columns nine places wide";
    for (size_t at = 1; at + 9 < size; at += 9) {
        const char *fault = fault_of_column(line + at);
        if (fault != NULL)
            return fault;
    }
    return line[0] == 'K' ? "a K line has two columns, a kind and its width" : "a B, H or R line has two to seven columns";
}
