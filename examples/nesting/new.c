#include <stdbool.h>
#include <stdint.h>

#define SIZE 80
#define OPEN '['
#define CLOSE ']'

static char line[SIZE];
static uint32_t at;

static bool takes(char byte);
static bool is_item(void);
bool is_list(void);

bool is_line(void)
{
    at = 0;
    return is_list() && takes('\n');
}

// a list has items in brackets, as [0,[1,1],[]]
bool is_list(void)
{
    if (!takes(OPEN)) return false;
    if (takes(CLOSE)) return true;
    do {
        if (!is_item()) return false;
    } while (takes(','));
    return takes(CLOSE);
}

// an item is a bit or a list
static bool is_item(void)
{
    if (takes('0') || takes('1')) return true;
    return is_list();
}

static bool takes(char byte)
{
    if (at >= SIZE || line[at] != byte) return false;
    at++;
    return true;
}
