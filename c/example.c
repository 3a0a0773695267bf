#include <stdio.h>
#include "owlgantry.h"

int main(void) {
    static uint8_t pixels[4 * 1024 * 768];
    const char bytes[] = "\033Pq#1;2;100;0;0!2B\033\\";
    owlgantry_canvas canvas = owlgantry_canvas_of(pixels, sizeof pixels, 1024);
    uint32_t palette[OWLGANTRY_REGISTERS];
    owlgantry_picture picture;
    owlgantry_part part;
    owlgantry_standard_palette(palette);
    uint64_t refusal =
        owlgantry_read(owlgantry_house_limits(), canvas, bytes, sizeof bytes - 1, palette, &picture, &part);
    printf("refusal %d, %d x %d, red %d\n", (int)refusal, (int)picture.width, (int)picture.height, pixels[0]);
    return (int)refusal;
}
