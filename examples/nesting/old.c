#include <stdbool.h>
#include <stdint.h>

#define SIZE 80

static char line[SIZE];
static uint32_t at;

bool is_list(void);

static bool takes(char wanted)
{
    if (at >= SIZE || line[at] != wanted)
        return false;
    at++;
    return true;
}

/* an item is a bit or a list */
static bool is_item(void)
{
    if (takes('0') || takes('1'))
        return true;
    return is_list();
}

/* a list has items in brackets, as [0,[1,1],[]] */
bool is_list(void)
{
    if (!takes('['))
        return false;
    if (takes(']'))
        return true;
    do {
        if (!is_item())
            return false;
    } while (takes(','));
    return takes(']');
}

bool is_line(void)
{
    at = 0;
    return is_list() && takes('\n');
}
