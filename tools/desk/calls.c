#include "calls.h"

#include <inttypes.h>

/* A command: its operands in their order, with their length in bytes where it is not 1, and the
 * call in words. Each begins with the calling party. tools/kinds reads the rows. */
typedef struct command {
    uint8_t byte;
    const char *operands;
    const char *words;
} command;

static const command commands[] = {
    {0x01, "P base/2 reg", "party {P} takes the reservation at cell {base} into register {reg}"},
    {0x02, "P base/2 len/2", "party {P} splits the reservation at cell {base}, {len} cells below"},
    {0x03, "P base/2", "party {P} merges the reservation at cell {base} with the next one"},
    {0x04, "P base/2 to", "party {P} gives the reservation at cell {base} to party {to}"},
    {0x05, "P base/2", "party {P} revokes the reservation at cell {base}"},
    {0x06, "P n/2", "party {P} sweeps the next {n} cells"},
    {0x07, "P", "party {P} collects"},
    {0x08, "P page frame", "party {P} maps page {page} to frame {frame}"},
    {0x09, "P page", "party {P} unmaps page {page}"},
    {0x0A, "P frame", "party {P} zeroes frame {frame}"},
    {0x0B, "P a off/2 d", "party {P} loads through register {a}, offset {off}, into register {d}"},
    {0x0C, "P a off/2 s", "party {P} stores register {s} through register {a}, offset {off}"},
    {0x0D, "P s off/2 len/2 mask d",
     "party {P} narrows register {s} to {len} cells from offset {off} on, "
     "permissions {mask}, into register {d}"},
    {0x0E, "P d value/8", "party {P} sets register {d} to the number {value}"},
    {0x0F, "P s to", "party {P} grants register {s} to party {to}"},
    {0x10, "P d", "party {P} receives into register {d}"},
    {0x11, "P base/2 reg mask",
     "party {P} takes the reservation at cell {base} into register {reg} with mask {mask}"},
    {0x12, "P parent child limit/2 holder",
     "party {P} creates principal {child} below principal {parent} with limit {limit} "
     "for party {holder}"},
    {0x13, "P principal page", "party {P} claims page {page} for principal {principal}"},
    {0x14, "P principal page", "party {P} releases page {page} for principal {principal}"},
    {0x15, "P principal", "party {P} destroys principal {principal}"},
};

static const command *command_of(uint64_t byte)
{
    for (size_t at = 0; at < sizeof commands / sizeof commands[0]; at++)
        if (commands[at].byte == byte)
            return &commands[at];
    return NULL;
}

const char *operands_of(uint64_t byte)
{
    const command *const it = command_of(byte);
    return it == NULL ? "" : it->operands;
}

const char *next_operand(const char *layout, char name[16])
{
    const size_t length = strcspn(layout, " /");
    if (length == 0 || length >= 16)
        return NULL;
    memcpy(name, layout, length);
    name[length] = '\0';
    layout += strcspn(layout, " ");
    return layout + strspn(layout, " ");
}

size_t bytes_of(uint64_t byte)
{
    size_t length = 1;
    for (const char *at = operands_of(byte); *at != '\0'; at += strspn(at, " ")) {
        const size_t word = strcspn(at, " ");
        const char *const slash = memchr(at, '/', word);
        length += slash == NULL ? 1 : (size_t)(slash[1] - '0');
        at += word;
    }
    return length;
}

uint64_t operand(const cetomuhi_call *call, const char *wanted)
{
    char name[16];
    const char *layout = operands_of(call->numbers[0]);
    for (size_t at = 1; at < CETOMUHI_CALL_NUMBERS; at++) {
        layout = next_operand(layout, name);
        if (layout == NULL)
            return 0;
        if (strcmp(name, wanted) == 0)
            return call->numbers[at];
    }
    return 0;
}

void add_filled(text *to, const char *words, const cetomuhi_call *call)
{
    for (;;) {
        char name[16] = "";
        const size_t plain = strcspn(words, "{");
        const size_t length = strcspn(words + plain, "}");
        add(to, "%.*s", (int)plain, words);
        if (words[plain] == '\0' || length > sizeof name)
            return;
        memcpy(name, words + plain + 1, length - 1);
        add(to, "%" PRIu64, operand(call, name));
        words += plain + length + 1;
    }
}

void add_call(text *to, const cetomuhi_call *call)
{
    const command *const it = command_of(call->numbers[0]);
    if (it != NULL)
        add_filled(to, it->words, call);
}
