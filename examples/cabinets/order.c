/* The order in ten lines that cabinet.h has, as it stands there: ten_lines.inc is cut out of the header. The gate
 * builds this against the installed library, by pkg-config alone (reference/checks/cabinet.sh). What the lines leave
 * to a cabinet's program (card, line, wait) is done here by next to nothing. */
#include <cabinet.h>
#include <stdlib.h>

static uint8_t n = 2, f = 1, me = 1, willing = 1, len, card[CABINET_CARD], t[CABINET_TELEGRAM], in[CABINET_TELEGRAM];
static uint32_t position, number = 1, target = 100;
static unsigned k, cards, sent;
static size_t length;

static int read_card(uint8_t *to) { (void)to; return 0; }
static void write_card(const uint8_t *from) { cards += from[0] == 0x4C && sent == 0; }
static void send_to(uint8_t to, const uint8_t *bytes, size_t size) { sent += to == 2 && bytes[2] == 1 && size == 16; }
static int waited(uint32_t stage) { return stage == 1; }

int main(void) {
#include "ten_lines.inc"
    /* it has voted, sent its vote to the other, and its first wait is over */
    return cabinet_show(s, CABINET_WORDS, d, CABINET_SHOWN) || d[CABINET_STAGE] != 2 || cards != 1 || sent != 1;
}
