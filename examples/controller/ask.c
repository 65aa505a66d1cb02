// Answers questions over a serial line, on a controller with 64 KiB: a bare-metal program for qemu's board mps2-an386. It takes two bytes, a length with the
// lower byte first, and as many bytes, a question and its sheet, as samples/ has them. It answers with the text of the key and a line `stack N of M`: how much
// stack has been used since the start, and how much there is. Then it waits for the next question.
#include <analyser.h>

// The board's first serial line.
struct serial {
    volatile uint32_t data, state, control, interrupt, divider;
};
static struct serial *const serial = (struct serial *)0x40004000;
enum { OUTPUT_FULL = 1, INPUT_FULL = 2, ENABLED = 3 };

static uint8_t get(void) {
    while (!(serial->state & INPUT_FULL)) continue;
    return (uint8_t)serial->data;
}
static void put(uint8_t byte) {
    while (serial->state & OUTPUT_FULL) continue;
    serial->data = byte;
}
static void put_text(const char *text) {
    while (*text) put((uint8_t)*text++);
}
static void put_number(uint32_t number) {
    if (number >= 10) put_number(number / 10);
    put((uint8_t)('0' + number % 10));
}

// The stack is what the linker leaves, painted up to where it is in use.
extern uint32_t bss_begins[], bss_ends[], stack_ends[];
enum { PAINT = 0x5afe5afe };
static uint32_t used_stack(void) {
    const uint32_t *low = bss_ends;
    while (low < stack_ends && *low == PAINT) low++;
    return (uint32_t)((uintptr_t)stack_ends - (uintptr_t)low);
}

// One byte more than the longest input: what lies beyond it changes no answer, and is only taken from the line.
static uint8_t input[ANALYSER_KEY_INPUT_BYTES + 1], text[ANALYSER_KEY_TEXT_BYTES];

static analyser_length get_input(void) {
    uint32_t length = get();
    length |= (uint32_t)get() << 8;
    for (uint32_t i = 0; i < length; i++) {
        uint8_t byte = get();
        if (i < sizeof input) input[i] = byte;
    }
    return length < sizeof input ? length : sizeof input;
}

static void answer(void) {
    analyser_length length = 0;
    uint16_t place = 0;
    // nothing refuses it: the text has room for every key, and a refusal of the question is a text
    analyser_key_text(input, get_input(), text, sizeof text, &length, &place);
    for (analyser_length i = 0; i < length; i++) put(text[i]);
    put_text("stack ");
    put_number(used_stack());
    put_text(" of ");
    put_number((uint32_t)((uintptr_t)stack_ends - (uintptr_t)bss_ends));
    put_text("\n");
}

static void start(void) {
    uint32_t *here;
    __asm__ volatile("mov %0, sp" : "=r"(here));
    for (uint32_t *word = bss_begins; word < bss_ends; word++) *word = 0;
    for (volatile uint32_t *word = bss_ends; word < here; word++) *word = PAINT;
    serial->divider = 16;
    serial->control = ENABLED;
    for (;;) answer();
}

__attribute__((section(".vectors"), used)) static void *const vectors[] = {stack_ends, (void *)start};
